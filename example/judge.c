/*
 * Judges the block in the file named on the command line, and says what the library answered.
 * On x86-64: cc -Iinclude example/judge.c target/staticlib/libcedar.a -o target/judge && target/judge example/k.block
 */
#include "example.h"

/* Bytes of the block before word 3 of its first record, which is the instrument. */
enum { FIRST_INSTRUMENT = 6 };

static void print_prefix(uint16_t instrument)
{
    uint64_t prefix = cedar_prefix(instrument);

    printf("prefix %c%c%c\n", (int)cedar_a(prefix), (int)cedar_b(prefix), (int)cedar_c(prefix));
}

int main(int argc, char **argv)
{
    static uint8_t block[BLOCK_ROOM];
    const uint8_t *instrument = block + FIRST_INSTRUMENT;
    long length = read_argument(argc, argv, block, sizeof block);
    uint64_t answer;

    if (length < 0)
        return 2;
    answer = cedar_judge(block, (size_t)length);
    print_answer(stdout, answer);
    if (cedar_n(answer) != 0)
        return 1;
    printf("records %u\n", (unsigned)cedar_a(answer));
    print_prefix((uint16_t)(instrument[0] << 8 | instrument[1]));
    return 0;
}

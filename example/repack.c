/*
 * Repacks the blocks in the file named on the command line and writes the new ones, or says which block was refused.
 * On x86-64: cc -Iinclude example/repack.c target/staticlib/libcedar.a -o target/repack
 *            target/repack example/night.block | cmp - example/night-repacked.block
 */
#include "example.h"

/* Bytes of the smallest block. */
enum { BLOCK_LEAST = 36 };

/* Whether the block that starts here, by its first word, is refused; else `bytes` is its length. */
static int is_refused(const uint8_t *block, size_t *bytes)
{
    *bytes = 2 * (size_t)(block[0] << 8 | block[1]);
    return *bytes < BLOCK_LEAST || *bytes > CEDAR_BLOCK_MOST || cedar_n(cedar_judge(block, *bytes)) != 0;
}

/* The number of the first block that is refused; there is one where the answer is 1 to 9. */
static unsigned refused_block(const uint8_t *blocks)
{
    unsigned number = 1;
    size_t bytes;

    while (!is_refused(blocks, &bytes)) {
        blocks += bytes;
        number++;
    }
    return number;
}

static void say_refusal(uint64_t answer, const uint8_t *blocks)
{
    switch (cedar_n(answer)) {
    case 52:
        fprintf(stderr, "the file has over %d bytes\n", CEDAR_REPACK_MOST);
        break;
    case 51:
        fprintf(stderr, "block %u is not all there\n", (unsigned)cedar_a(answer));
        break;
    default:
        fprintf(stderr, "block %u is refused\n", refused_block(blocks));
    }
}

int main(int argc, char **argv)
{
    static uint8_t blocks[SLICE_ROOM], repacked[CEDAR_REPACK_MOST];
    long length = read_argument(argc, argv, blocks, sizeof blocks);
    uint64_t answer;

    if (length < 0)
        return 2;
    /* 50 is not answered: the repacked blocks need no more room than the file's. */
    answer = cedar_repack(blocks, (size_t)length, repacked, sizeof repacked);
    if (cedar_n(answer) != 0)
        say_refusal(answer, blocks);
    return finish_conversion(answer, repacked);
}

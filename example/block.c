/*
 * Writes the block of the lines in the file named on the command line, or says why the library refused.
 * Lines are judged before a buffer is found for their block: it has just the bytes needed, and refused lines need none.
 * On x86-64: cc -Iinclude example/block.c target/staticlib/libcedar.a -o target/block
 *            target/block example/k.lines | cmp - example/k.block
 */
#include <stdlib.h>

#include "example.h"

/* Writes the block of lines that were judged to need so many bytes; gives the program's status. */
static int write_block(const uint8_t *text, size_t length, size_t needed)
{
    uint8_t *block = malloc(needed);
    int status;

    if (block == NULL) {
        fprintf(stderr, "no memory for a block of %u bytes\n", (unsigned)needed);
        return 2;
    }
    status = finish_conversion(cedar_write_block(text, length, block, needed), block);
    free(block);
    return status;
}

int main(int argc, char **argv)
{
    static uint8_t text[TEXT_ROOM];
    long length = read_argument(argc, argv, text, sizeof text);
    uint64_t judged;

    if (length < 0)
        return 2;
    judged = cedar_judge_lines(text, (size_t)length);
    if (cedar_n(judged) != 0) {
        print_answer(stderr, judged);
        return 1;
    }
    return write_block(text, (size_t)length, cedar_a(judged));
}

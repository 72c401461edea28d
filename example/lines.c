/*
 * Writes the lines of the block in the file named on the command line, or says why the library refused.
 * On x86-64: cc -Iinclude example/lines.c target/staticlib/libcedar.a -o target/lines && target/lines example/k.block
 */
#include "example.h"

int main(int argc, char **argv)
{
    static uint8_t block[BLOCK_ROOM], text[CEDAR_TEXT_MOST];
    long length = read_argument(argc, argv, block, sizeof block);

    if (length < 0)
        return 2;
    return finish_conversion(cedar_to_lines(block, (size_t)length, text, sizeof text), text);
}

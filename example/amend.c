/*
 * Amends a value of the block in the file named on the command line, undoes that, and says what the library answered.
 * On x86-64: cc -Iinclude example/amend.c target/staticlib/libcedar.a -o target/amend && target/amend example/k.block
 */
#include "example.h"

/* Where the value stands in block K, and what is put for it. */
enum { RECORD = 1, WORD = 22, OLD_VALUE = 900, NEW_VALUE = 905 };

/* The answer, and the checksum of the block that it speaks of; gives the program's status. */
static int tell(uint64_t answer, const uint8_t *block, size_t length)
{
    print_answer(stdout, answer);
    if (cedar_n(answer) != 0)
        return 1;
    printf("checksum %d\n", (int16_t)(block[length - 2] << 8 | block[length - 1]));
    return 0;
}

int main(int argc, char **argv)
{
    static uint8_t block[BLOCK_ROOM], sheet[CEDAR_SHEET_BYTES];
    long length = read_argument(argc, argv, block, sizeof block);
    uint64_t amended;

    if (length < 0)
        return 2;
    cedar_sheet_start(sheet, sizeof sheet);
    amended = cedar_amend(block, (size_t)length, sheet, sizeof sheet, RECORD, WORD, OLD_VALUE, NEW_VALUE);
    if (tell(amended, block, (size_t)length) != 0)
        return 1;
    return tell(cedar_undo(block, (size_t)length, sheet, sizeof sheet), block, (size_t)length);
}

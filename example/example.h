/* What the example programs share. */
#ifndef EXAMPLE_H
#define EXAMPLE_H

#include <errno.h>
#include <stdio.h>

#include "cedar.h"

/* One byte more than the largest block, text or slice of blocks has, so that a longer file is refused as well. */
enum { BLOCK_ROOM = CEDAR_BLOCK_MOST + 1, TEXT_ROOM = CEDAR_READ_MOST + 1, SLICE_ROOM = CEDAR_REPACK_MOST + 1 };

/* The number of bytes read, at most `room`, or -1, with the reason in errno, if the file cannot be read. */
static inline long read_file(const char *name, uint8_t *bytes, size_t room)
{
    FILE *file = fopen(name, "rb");
    size_t length;
    int failed, reason;

    if (file == NULL)
        return -1;
    length = fread(bytes, 1, room, file);
    failed = ferror(file);
    /* Closing may change it. */
    reason = errno;
    fclose(file);
    errno = reason;
    return failed ? -1 : (long)length;
}

/* As read_file, for the file named on the command line; says why where that gives -1. */
static inline long read_argument(int argc, char **argv, uint8_t *bytes, size_t room)
{
    long length;

    if (argc != 2) {
        fprintf(stderr, "usage: give the name of one file\n");
        return -1;
    }
    length = read_file(argv[1], bytes, room);
    if (length < 0)
        perror(argv[1]);
    return length;
}

static inline void print_answer(FILE *stream, uint64_t answer)
{
    fprintf(stream, "answer %u %u %u %u\n", (unsigned)cedar_n(answer), (unsigned)cedar_a(answer),
            (unsigned)cedar_b(answer), (unsigned)cedar_c(answer));
}

/* Writes what a conversion left in `output`, or says why it was refused; gives the program's status. */
static inline int finish_conversion(uint64_t answer, const uint8_t *output)
{
    if (cedar_n(answer) != 0) {
        print_answer(stderr, answer);
        return 1;
    }
    /* The bytes may get no further than a buffer until they are flushed. */
    return fwrite(output, 1, cedar_a(answer), stdout) == cedar_a(answer) && fflush(stdout) == 0 ? 0 : 2;
}

#endif

/* The records of good blocks, and the fewest blocks that have room for them in this order. */
#ifndef MINIMUM_H
#define MINIMUM_H

#include <stddef.h>
#include <stdint.h>

#include "format.h"
#include "words.h"

struct records {
    size_t count, words; /* the words are those of all */
    const uint8_t *record[SLICE_BYTES / (WORD_BYTES * PROLOGUE_LEAST)];
};

/* The records of the good blocks in so many bytes, and the number of these blocks. */
size_t records_of(const uint8_t *blocks, size_t length, struct records *records);

/* The fewest blocks, over all ways of cutting the list of records. */
size_t fewest_blocks(const struct records *records);

#endif

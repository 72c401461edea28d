/* Slices put together block by block. */
#ifndef SLICES_H
#define SLICES_H

#include <stddef.h>
#include <stdint.h>

#include "blocks.h"
#include "format.h"

/* Bytes: enough for a length that is a slice's again when it is cut to 16 bits. */
enum { SLICE_ROOM = 65536 + SLICE_BYTES };

enum { BLOCKS_MOST = SLICE_ROOM / (WORD_BYTES * BLOCK_LEAST) };

struct slice {
    size_t length; /* the bytes to lend: those of the blocks, unless it is damaged */
    size_t blocks;
    size_t start[BLOCKS_MOST + 1]; /* bytes before each block, and before what follows the last one */
    uint8_t bytes[SLICE_ROOM];
};

void slice_begin(struct slice *slice);

/* Adds the bytes that the block lends. */
void slice_add(struct slice *slice, const struct block *block);

/* Takes a copy of a good block of the slice, the one behind so many others. */
void slice_copy_block(const struct slice *slice, size_t others, struct block *block);

/* Puts the bytes that the block lends in that one's place, if there is room for them. */
void slice_replace(struct slice *slice, size_t others, const struct block *block);

/* Sets the length alone, as far as there is room; bytes that it adds are 0. */
void slice_lend(struct slice *slice, size_t length);

#endif

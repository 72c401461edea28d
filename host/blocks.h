/* Blocks put together record by record. */
#ifndef BLOCKS_H
#define BLOCKS_H

#include <stddef.h>
#include <stdint.h>

#include "format.h"
#include "words.h"

/* Words that a damaged block may have beyond the most. */
enum { EXCESS = 64 };

/* Bytes: enough for a length that is a block's again when its words are counted in 16 bits. */
enum { BLOCK_ROOM = WORD_BYTES * (65536 + BLOCK_MOST + EXCESS) };

enum { RECORDS_MOST = (BLOCK_MOST + EXCESS) / PROLOGUE_LEAST };

struct block {
    size_t words;
    size_t length; /* the bytes to lend: those of the words, unless it is damaged */
    size_t records;
    size_t start[RECORDS_MOST + 1]; /* words before each record, and before what follows the last one */
    uint8_t bytes[BLOCK_ROOM];
};

struct counts {
    size_t lprol, jpar, mpar, nrow;
};

void block_begin(struct block *block);

/* Both give the new record: its instrument and times are those of block K, its free words 0, its cards blank. */
uint8_t *block_add_data(struct block *block, struct counts counts);
uint8_t *block_add_cards(struct block *block, uint16_t kind, size_t cards);

/* Makes the block longer by words of 0, or shorter. */
void block_resize(struct block *block, size_t words);

/* Copies no more bytes than those of the words and those to lend. */
void block_copy(struct block *to, const struct block *from);

/* Sets the length alone; bytes that it adds are 0. */
void block_lend(struct block *block, size_t length);

/* Adds the checksum after the last record, and seals. */
void block_close(struct block *block);

/* Puts the first word, the checksum and the length right. */
void block_seal(struct block *block);

/* The block of these words, as they are. */
void block_of(struct block *block, const int *words, size_t count);

/* Block K of document 01. */
void block_of_k(struct block *block);

/* 8,000 words, and the longest text: one Data record, which it gives, of LPROL 16, MPAR 1, NROW 7,981. */
uint8_t *block_of_most_data(struct block *block);

/* One Catalogue of 199 lines. */
void block_of_most_cards(struct block *block);

#endif

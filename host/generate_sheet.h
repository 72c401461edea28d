/* Amendments and sheets by chance, valid and broken. */
#ifndef GENERATE_SHEET_H
#define GENERATE_SHEET_H

#include "blocks.h"
#include "chance.h"
#include "sheets.h"

/* Another word that is like this one, in most cases. */
uint16_t like_word(struct chance *chance, uint16_t word);

/* About where values begin and end, and the old value often right, even if the place is no value's or no record's. */
struct amendment guess_amendment(struct chance *chance, const struct block *block);

/* The same as an entry: its new value often stands at its place. */
struct amendment guess_entry(struct chance *chance, const struct block *block);

/* A sheet that keeps its layout, with any entries for the block. */
void generate_sheet(struct chance *chance, const struct block *block, struct sheet *sheet);

/* Breaks a sheet that keeps its layout, and on which no entry is zero; 40 is the only right answer to it. */
void spoil_sheet(struct chance *chance, struct sheet *sheet);

#endif

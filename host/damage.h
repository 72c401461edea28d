/* Damage to a closed block. */
#ifndef DAMAGE_H
#define DAMAGE_H

#include "blocks.h"
#include "chance.h"

/* A word that is likely to tell two readings of document 01 apart. */
uint16_t telling_word(struct chance *chance);

/* Puts counts into a Data record whose total is this one only where 16 bits are too few for it. */
void wrap_counts(struct chance *chance, uint8_t *record, size_t words);

/* One fault in the records (rows 4 to 9); seal the block after it. */
void damage_records(struct chance *chance, struct block *block);

/* One in a block of Catalogues and Headers (rows 6 to 8); seal the block after it. */
void damage_cards(struct chance *chance, struct block *block);

/* One fault in the length, the first word or the checksum (rows 1 to 3), or words exchanged; do not seal after it. */
void damage_frame(struct chance *chance, struct block *block);

#endif

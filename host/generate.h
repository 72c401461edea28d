/* Blocks by chance, valid and damaged. */
#ifndef GENERATE_H
#define GENERATE_H

#include <stdint.h>

#include "blocks.h"
#include "chance.h"

/* The chance of a case: the same for the same seed and number, whatever was drawn before. */
struct chance case_chance(uint64_t seed, uint64_t number);

/* A word, the narrowest and widest numbers of each width of a field most of all. */
uint16_t any_value(struct chance *chance);

/* A good block of so many words, a mostly small one, and one that is likely to have values. */
void generate_words(struct chance *chance, struct block *block, size_t words);
void generate_good(struct chance *chance, struct block *block);
void generate_amendable(struct chance *chance, struct block *block);

/* A Catalogue or Header as large as chance wants it, up to 198 cards. */
void generate_cards(struct chance *chance, struct block *block);

/* The block of a case, made with its chance. */
void generate_block(struct chance *chance, uint64_t number, struct block *block);

#endif

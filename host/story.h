/*
 * A block's amendments as document 01 tells them: a stack over the first block.
 * Nothing else is kept from call to call. Block, sheet and lines are made anew from the first ones and the stack, so
 * that they say by themselves what amend and undo must leave.
 */
#ifndef STORY_H
#define STORY_H

#include <stdbool.h>
#include <stddef.h>
#include <stdint.h>

#include "blocks.h"
#include "cedar.h"
#include "sheets.h"

struct story {
    struct block first;
    size_t text_length;
    uint8_t text[CEDAR_TEXT_MOST]; /* the first block's lines */
    size_t values;
    struct place value[BLOCK_MOST]; /* the places of all values, in their order */
    bool is_value[BLOCK_MOST + 1];  /* of each word of the block, numbered from 1 */
    size_t columns[BLOCK_MOST + 1]; /* bytes of the text before the field of each word that has one */
    struct amendment stack[STANDING_MOST];
    size_t standing;
};

/* From a good block and an empty sheet. */
void story_begin(struct story *story, const struct block *first);

/* What the calls answer; the stack is then as they leave it. */
uint64_t story_amend(struct story *story, struct amendment amendment);
uint64_t story_undo(struct story *story);

/* Whether the place is that of a value, and the word that stands there. */
bool story_has(const struct story *story, struct place place);
uint16_t story_value(const struct story *story, struct place place);

/* What stands now; the block has as many bytes as the first one, the text as many as the first one's. */
void story_block(const struct story *story, uint8_t *bytes);
void story_sheet(const struct story *story, struct sheet *sheet);
void story_text(const struct story *story, uint8_t *text);

#endif

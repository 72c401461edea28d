#include "slices.h"

#include <string.h>

#include "words.h"

void slice_begin(struct slice *slice)
{
    slice->length = 0;
    slice->blocks = 0;
    slice->start[0] = 0;
}

void slice_add(struct slice *slice, const struct block *block)
{
    memcpy(slice->bytes + slice->length, block->bytes, block->length);
    slice->length += block->length;
    slice->start[++slice->blocks] = slice->length;
}

void slice_copy_block(const struct slice *slice, size_t others, struct block *block)
{
    const size_t *start = slice->start + others;

    block->length = start[1] - start[0];
    block->words = words_of(block->length);
    memcpy(block->bytes, slice->bytes + start[0], block->length);
    block->records = 0;
    block->start[0] = 1;
    while (block->start[block->records] + 1 < block->words) {
        size_t before = block->start[block->records];

        block->start[++block->records] = before + word_at(block->bytes, before + 1);
    }
}

void slice_replace(struct slice *slice, size_t others, const struct block *block)
{
    size_t *start = slice->start + others;
    size_t old = start[1] - start[0];

    if (slice->length - old + block->length > SLICE_ROOM)
        return;
    memmove(slice->bytes + start[0] + block->length, slice->bytes + start[1], slice->length - start[1]);
    memcpy(slice->bytes + start[0], block->bytes, block->length);
    slice->length = slice->length - old + block->length;
    for (size_t i = others + 1; i <= slice->blocks; i++)
        slice->start[i] = slice->start[i] - old + block->length;
}

void slice_lend(struct slice *slice, size_t length)
{
    if (length > SLICE_ROOM)
        length = SLICE_ROOM;
    if (length > slice->length)
        memset(slice->bytes + slice->length, 0, length - slice->length);
    slice->length = length;
}

#include "blocks.h"

#include <string.h>

#include "words.h"

void block_begin(struct block *block)
{
    block->words = 1;
    block->records = 0;
    block->start[0] = 1;
}

static uint8_t *add_record(struct block *block, uint16_t kind, size_t ltot)
{
    static const uint16_t instrument_to_times[] = {30, 1, 1983, 508, 1422, 0, 1983, 508, 1422, 0};
    uint8_t *record = block->bytes + bytes_of(block->words);

    block_resize(block, block->words + ltot);
    put_word(record, 1, (uint16_t)ltot);
    put_word(record, 2, kind);
    for (size_t i = 0; i < 10; i++)
        put_word(record, 3 + i, instrument_to_times[i]);
    block->start[++block->records] = block->words;
    return record;
}

uint8_t *block_add_data(struct block *block, struct counts counts)
{
    size_t ltot = counts.lprol + 2 * counts.jpar + counts.mpar * (counts.nrow + 1);
    uint8_t *record = add_record(block, DATA, ltot);

    put_word(record, LPROL, (uint16_t)counts.lprol);
    put_word(record, JPAR, (uint16_t)counts.jpar);
    put_word(record, MPAR, (uint16_t)counts.mpar);
    put_word(record, NROW, (uint16_t)counts.nrow);
    return record;
}

uint8_t *block_add_cards(struct block *block, uint16_t kind, size_t cards)
{
    uint8_t *record = add_record(block, kind, LINE_WORDS * (1 + cards));

    memset(record + bytes_of(LINE_WORDS), ' ', bytes_of(LINE_WORDS * cards));
    return record;
}

void block_resize(struct block *block, size_t words)
{
    if (words > block->words)
        memset(block->bytes + bytes_of(block->words), 0, bytes_of(words - block->words));
    block->words = words;
}

void block_copy(struct block *to, const struct block *from)
{
    to->words = from->words;
    to->length = from->length;
    to->records = from->records;
    memcpy(to->start, from->start, sizeof to->start);
    memcpy(to->bytes, from->bytes, from->length > bytes_of(from->words) ? from->length : bytes_of(from->words));
}

void block_lend(struct block *block, size_t length)
{
    if (length > block->length)
        memset(block->bytes + block->length, 0, length - block->length);
    block->length = length;
}

void block_close(struct block *block)
{
    block_resize(block, block->words + 1);
    block_seal(block);
}

void block_seal(struct block *block)
{
    put_word(block->bytes, 1, (uint16_t)block->words);
    put_word(block->bytes, block->words, exclusive_or(block->bytes, block->words - 1));
    block->length = bytes_of(block->words);
}

void block_of(struct block *block, const int *words, size_t count)
{
    for (size_t i = 0; i < count; i++)
        put_word(block->bytes, 1 + i, (uint16_t)words[i]);
    block->words = count;
    block->length = bytes_of(count);
}

void block_of_k(struct block *block)
{
    static const int words[] = {
        26,  24,  1002, 30,  1,   1983, 508, 1422, 0,   1983, 508, 1422,   0,
        16,  1,   2,    2,   540, 285,  110, 550,  250, 900,  300, -32767, -32516,
    };

    block_of(block, words, sizeof words / sizeof words[0]);
    block->records = 1;
    block->start[0] = 1;
    block->start[1] = block->words - 1;
}

uint8_t *block_of_most_data(struct block *block)
{
    struct counts counts = {16, 0, 1, 7981};
    uint8_t *record;

    block_begin(block);
    record = block_add_data(block, counts);
    block_close(block);
    return record;
}

void block_of_most_cards(struct block *block)
{
    block_begin(block);
    block_add_cards(block, CATALOGUE, 198);
    block_close(block);
}

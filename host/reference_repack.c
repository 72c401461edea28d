#include "reference.h"

#include <string.h>

#include "cedar.h"
#include "format.h"
#include "words.h"

/* Words of a block beside its records: the length word and the checksum. */
enum { FRAME = BLOCK_MOST - WORDS_MOST };

/* The answer to the block at the front of what is left, with its number. */
static uint64_t judge_front(const uint8_t *block, size_t left, size_t number)
{
    size_t words;

    if (left < bytes_of(1))
        return pack(51, number, 0, 0);
    words = word_at(block, 1);
    if (words < BLOCK_LEAST || words > BLOCK_MOST)
        return pack(1, 0, 0, 0);
    if (bytes_of(words) > left)
        return pack(51, number, 0, 0);
    return reference_judge(block, bytes_of(words));
}

/* The record words of the current block, and the words of all whole blocks up to it. */
struct packing {
    size_t used, words;
};

/* What the records of a good block make of it. */
static struct packing count_records(struct packing packing, const uint8_t *block)
{
    const uint8_t *end = block + bytes_of(word_at(block, 1) - 1u);

    for (const uint8_t *record = block + bytes_of(1); record < end; record += bytes_of(word_at(record, 1))) {
        size_t ltot = word_at(record, 1);

        packing.used += ltot;
        packing.words += ltot;
        if (packing.used > WORDS_MOST) {
            packing.used = ltot;
            packing.words += FRAME;
        }
    }
    return packing;
}

/* The first refusal, or the bytes of the repacked blocks. */
static uint64_t judge_blocks(const uint8_t *blocks, const uint8_t *end)
{
    struct packing packing = {WORDS_MOST, 0};

    for (size_t number = 1; blocks < end; number++) {
        uint64_t judged = judge_front(blocks, (size_t)(end - blocks), number);

        if (cedar_n(judged) != 0)
            return judged;
        packing = count_records(packing, blocks);
        blocks += bytes_of(word_at(blocks, 1));
    }
    return pack(0, bytes_of(packing.words), 0, 0);
}

/* The current block, and where its next record goes. */
struct writing {
    uint8_t *block, *record;
};

static void seal(struct writing writing)
{
    size_t words = words_of((size_t)(writing.record - writing.block)) + 1;

    put_word(writing.block, 1, (uint16_t)words);
    put_word(writing.block, words, exclusive_or(writing.block, words - 1));
}

static struct writing write_records(struct writing writing, const uint8_t *block)
{
    const uint8_t *end = block + bytes_of(word_at(block, 1) - 1u);

    for (const uint8_t *record = block + bytes_of(1); record < end; record += bytes_of(word_at(record, 1))) {
        size_t bytes = bytes_of(word_at(record, 1));

        if ((size_t)(writing.record - writing.block) + bytes > bytes_of(1 + WORDS_MOST)) {
            seal(writing);
            writing.block = writing.record + bytes_of(1);
            writing.record = writing.block + bytes_of(1);
        }
        memcpy(writing.record, record, bytes);
        writing.record += bytes;
    }
    return writing;
}

static void write_blocks(const uint8_t *blocks, const uint8_t *end, uint8_t *out)
{
    struct writing writing = {out, out + bytes_of(1)};

    for (; blocks < end; blocks += bytes_of(word_at(blocks, 1)))
        writing = write_records(writing, blocks);
    seal(writing);
}

uint64_t reference_repack(const uint8_t *blocks, size_t blocks_length, uint8_t *out, size_t out_length)
{
    const uint8_t *end = blocks + blocks_length;
    uint64_t answer;

    if (blocks_length > SLICE_BYTES)
        return pack(52, 0, 0, 0);
    answer = judge_blocks(blocks, end);
    if (cedar_n(answer) != 0 || blocks == end)
        return answer;
    if (out_length < cedar_a(answer))
        return pack(50, cedar_a(answer), 0, 0);
    write_blocks(blocks, end, out);
    return answer;
}

#include "generate_slice.h"

#include "damage.h"
#include "generate.h"
#include "words.h"

/* About so many of the words left: what is taken has at least and at most as many as given, the rest none or as many. */
static size_t share_of(size_t left, size_t words, size_t least, size_t most)
{
    if (left <= words)
        return left;
    if (left - words >= least)
        return words;
    return left <= most ? left : left - least;
}

static void add_block(struct chance *chance, struct slice *slice, size_t words)
{
    static struct block block;

    generate_words(chance, &block, words);
    slice_add(slice, &block);
}

/* Good blocks of so many words together: none, or at least those of the smallest block. */
static void build_words(struct chance *chance, struct slice *slice, size_t words)
{
    /* Words of a block, at least and at most: the smallest, nearly so, small, half empty, full, any. */
    static const size_t sizes[][2] = {
        {BLOCK_LEAST, BLOCK_LEAST}, {BLOCK_LEAST, BLOCK_LEAST + 3}, {BLOCK_LEAST, 60},        {BLOCK_LEAST, 600},
        {3000, 5000},               {3990, 4010},                   {BLOCK_MOST, BLOCK_MOST}, {BLOCK_LEAST, BLOCK_MOST},
    };
    const size_t *size = PICK(chance, sizes);

    slice_begin(slice);
    while (words > 0) {
        size_t drawn = between(chance, size[0], size[1]);
        size_t share = share_of(words, drawn, BLOCK_LEAST, BLOCK_MOST);

        add_block(chance, slice, share);
        words -= share;
    }
}

/* Mostly short, so that a fault has few blocks to hide among. */
static void build_any(struct chance *chance, struct slice *slice)
{
    static const size_t mosts[] = {60, 120, 120, 600, 600, 2000, SLICE_BYTES / WORD_BYTES};

    build_words(chance, slice, between(chance, BLOCK_LEAST, PICK(chance, mosts)));
}

/* None, one or two blocks. */
static void build_few(struct chance *chance, struct slice *slice)
{
    static struct block block;

    slice_begin(slice);
    for (size_t blocks = between(chance, 0, 2); blocks > 0; blocks--) {
        generate_good(chance, &block);
        slice_add(slice, &block);
    }
}

/* About the most bytes that a slice may have: 63,996 to 64,004. */
static void build_limit(struct chance *chance, struct slice *slice)
{
    size_t most = words_of(SLICE_BYTES);

    build_words(chance, slice, between(chance, most - 2, most + 2));
}

/* Adds blocks that have so many record words together. */
static void add_record_words(struct chance *chance, struct slice *slice, size_t words)
{
    while (words > 0) {
        size_t drawn = between(chance, PROLOGUE_LEAST, WORDS_MOST);
        size_t share = share_of(words, drawn, PROLOGUE_LEAST, WORDS_MOST);

        add_block(chance, slice, share + 2);
        words -= share;
    }
}

/* Records that fill blocks so far that no other fits, and then some that just fill one, or just do not fit. */
static void build_brim(struct chance *chance, struct slice *slice)
{
    slice_begin(slice);
    for (size_t blocks = between(chance, 0, 2); blocks > 0; blocks--)
        add_record_words(chance, slice, between(chance, WORDS_MOST - PROLOGUE_LEAST + 1, WORDS_MOST));
    add_record_words(chance, slice, between(chance, WORDS_MOST - 2, WORDS_MOST + 2));
    if (one_in(chance, 2))
        add_record_words(chance, slice, between(chance, PROLOGUE_LEAST, PROLOGUE_LEAST + 100));
}

/* 51: the last bytes are gone, often all but one or two of a block. */
static void cut_bytes(struct chance *chance, struct slice *slice)
{
    size_t last = slice->start[slice->blocks - 1];
    size_t few = slice->length < 2 ? slice->length : between(chance, 1, 2);
    const size_t lengths[] = {
        between(chance, 0, slice->length), between(chance, last, slice->length), last + few, slice->length - few,
    };

    slice_lend(slice, PICK(chance, lengths));
}

/* 51 or 1: something follows the last block, often one byte only. */
static void add_bytes(struct chance *chance, struct slice *slice)
{
    size_t old = slice->length;

    slice_lend(slice, old + (one_in(chance, 2) ? 1 : between(chance, 1, bytes_of(BLOCK_LEAST))));
    if (slice->length - old > 1)
        put_word(slice->bytes + old, 1, telling_word(chance));
    else if (one_in(chance, 2))
        slice->bytes[old] = (uint8_t)draw(chance);
}

/* 1 or 51: a block tells another length; the next one may be looked for anywhere. */
static void change_first_word(struct chance *chance, struct slice *slice)
{
    uint8_t *block = slice->bytes + slice->start[between(chance, 0, slice->blocks - 1)];
    size_t left = words_of(slice->length - (size_t)(block - slice->bytes));
    const size_t firsts[] = {
        0, BLOCK_LEAST - 1, BLOCK_LEAST, BLOCK_MOST, BLOCK_MOST + 1, 0xffff, left, left + 1, left - 1,
        word_at(block, 1) + 1u, word_at(block, 1) - 1u, telling_word(chance),
    };

    put_word(block, 1, (uint16_t)PICK(chance, firsts));
}

/* 3 to 9: in the block behind so many others; or words too many or too few for their block. */
static void damage_block(struct chance *chance, struct slice *slice, size_t others)
{
    static struct block block;

    slice_copy_block(slice, others, &block);
    if (one_in(chance, 3)) {
        damage_frame(chance, &block);
    } else {
        damage_records(chance, &block);
        block_seal(&block);
    }
    slice_replace(slice, others, &block);
}

static void damage_one(struct chance *chance, struct slice *slice)
{
    damage_block(chance, slice, between(chance, 0, slice->blocks - 1));
}

static void exchange_block(struct chance *chance, struct slice *slice, const struct block *block)
{
    slice_replace(slice, between(chance, 0, slice->blocks - 1), block);
}

/* Any block in the place of one, good or damaged. */
static void put_any(struct chance *chance, struct slice *slice)
{
    static struct block block;

    generate_block(chance, draw(chance), &block);
    exchange_block(chance, slice, &block);
}

/* 6 to 8: damaged cards in the place of a block. */
static void put_cards(struct chance *chance, struct slice *slice)
{
    static struct block block;

    generate_cards(chance, &block);
    damage_cards(chance, &block);
    block_seal(&block);
    exchange_block(chance, slice, &block);
}

/* The first of two faults is the one to tell. */
static void damage_two(struct chance *chance, struct slice *slice)
{
    size_t second = between(chance, 0, slice->blocks - 1);

    damage_block(chance, slice, second);
    if (second > 0)
        damage_block(chance, slice, between(chance, 0, second - 1));
}

static void damage_and_cut(struct chance *chance, struct slice *slice)
{
    damage_one(chance, slice);
    cut_bytes(chance, slice);
}

/* 52: also lengths that are right again when they are cut to 16 bits. */
static void lengthen(struct chance *chance, struct slice *slice)
{
    const size_t lengths[] = {
        SLICE_BYTES, SLICE_BYTES + 1, SLICE_BYTES + 2, 65535, 65536, 65536 + slice->length, SLICE_ROOM,
    };

    if (one_in(chance, 2))
        damage_one(chance, slice);
    slice_lend(slice, PICK(chance, lengths));
}

/* Faults in slices of about the most bytes. */
static void damage_limit(struct chance *chance, struct slice *slice)
{
    static void (*const faults[])(struct chance *, struct slice *) = {
        add_bytes, cut_bytes, change_first_word, damage_one,
    };

    build_limit(chance, slice);
    PICK(chance, faults)(chance, slice);
}

/* Words that look like parts of blocks. */
static void build_noise(struct chance *chance, struct slice *slice)
{
    size_t words = between(chance, 1, 4 * LINE_WORDS);

    slice_begin(slice);
    slice_lend(slice, bytes_of(words));
    for (size_t number = 1; number <= words; number++)
        put_word(slice->bytes, number, telling_word(chance));
    slice->length -= between(chance, 0, 1);
}

void generate_slice(struct chance *chance, uint64_t number, struct slice *slice)
{
    static void (*const wholes[])(struct chance *, struct slice *) = {
        build_any, build_few, build_limit, build_brim, build_brim, build_noise, damage_limit,
    };
    static void (*const faults[])(struct chance *, struct slice *) = {
        cut_bytes, add_bytes, change_first_word, damage_one, damage_two, damage_and_cut, put_any, put_cards, lengthen,
    };

    if (number % 2 == 0) {
        wholes[number / 2 % (sizeof wholes / sizeof wholes[0])](chance, slice);
    } else {
        build_any(chance, slice);
        faults[number / 2 % (sizeof faults / sizeof faults[0])](chance, slice);
    }
}

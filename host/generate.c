#include "generate.h"

#include "damage.h"
#include "words.h"

uint16_t any_value(struct chance *chance)
{
    static const uint16_t limits[] = {0, 1, 9, 10, 99, 100, 999, 1000, 9999, 10000, 0x7fff, 0x8000};
    uint16_t limit = PICK(chance, limits);
    const uint16_t values[] = {limit, (uint16_t)-limit, (uint16_t)draw(chance), (uint16_t)(draw(chance) % 1000)};

    return PICK(chance, values);
}

static void fill_words(struct chance *chance, uint8_t *record, size_t first, size_t last)
{
    for (size_t number = first; number <= last; number++)
        put_word(record, number, any_value(chance));
}

/* Often with blanks at its ends, or with nothing else. */
static void fill_card(struct chance *chance, uint8_t *card)
{
    size_t end = one_in(chance, 2) ? CARD_COLUMNS : between(chance, 0, CARD_COLUMNS);
    size_t start = one_in(chance, 2) ? 0 : between(chance, 0, CARD_COLUMNS);

    for (size_t column = start; column < end; column++)
        card[column] = (uint8_t)between(chance, CARD_LEAST, CARD_MOST);
}

/* Counts of a Data record of so many words; LPROL takes what the others leave. */
static struct counts counts_of(struct chance *chance, size_t words)
{
    struct counts counts = {words, 0, 0, 0};
    size_t free = words - PROLOGUE_LEAST;

    if (one_in(chance, 2))
        counts.jpar = between(chance, 0, free / 2);
    free -= 2 * counts.jpar;
    if (free == 0 || one_in(chance, 4)) {
        /* With MPAR 0 any NROW takes no words. */
        counts.nrow = between(chance, 0, one_in(chance, 2) ? 0x7fff : 2);
    } else {
        counts.mpar = one_in(chance, 4) ? 1 : between(chance, 1, free);
        counts.nrow = (one_in(chance, 2) ? free / counts.mpar : between(chance, 1, free / counts.mpar)) - 1;
    }
    counts.lprol -= 2 * counts.jpar + counts.mpar * (counts.nrow + 1);
    return counts;
}

static void fill_data(struct chance *chance, uint8_t *record)
{
    fill_words(chance, record, 3, LPROL - 1);
    fill_words(chance, record, NROW + 1, word_at(record, 1));
}

static void add_data(struct chance *chance, struct block *block, struct counts counts)
{
    fill_data(chance, block_add_data(block, counts));
}

static void add_cards(struct chance *chance, struct block *block, size_t words)
{
    uint16_t kind = one_in(chance, 2) ? CATALOGUE : HEADER;
    uint8_t *record = block_add_cards(block, kind, words / LINE_WORDS - 1);

    fill_words(chance, record, 3, (kind == CATALOGUE ? CATALOGUE_ZERO : HEADER_ZERO) - 1);
    for (size_t first = LINE_WORDS; first < words; first += LINE_WORDS)
        fill_card(chance, record + bytes_of(first));
}

/* The words that a record of at most `most` takes of `left`, so that the rest is none or a record's. */
static size_t share_of(struct chance *chance, size_t left, size_t most)
{
    size_t words = between(chance, PROLOGUE_LEAST, most < left ? most : left);

    if (words >= LINE_WORDS && one_in(chance, 2))
        words -= words % LINE_WORDS;
    return left - words < PROLOGUE_LEAST ? left : words;
}

/* More than 8,000 words are the block's only fault. */
void generate_words(struct chance *chance, struct block *block, size_t words)
{
    static const size_t mosts[] = {PROLOGUE_LEAST, LINE_WORDS, 3 * LINE_WORDS, BLOCK_MOST};
    size_t most = PICK(chance, mosts);

    block_begin(block);
    while (block->words + 1 < words) {
        size_t share = share_of(chance, words - 1 - block->words, most);

        if (share % LINE_WORDS == 0 && !one_in(chance, 8))
            add_cards(chance, block, share);
        else
            add_data(chance, block, counts_of(chance, share));
    }
    block_close(block);
}

/* Mostly small, so that a fault has few words to hide among. */
static void build_any(struct chance *chance, struct block *block)
{
    static const size_t mosts[] = {BLOCK_LEAST, 60, 60, 120, 120, 120, 600, 600, BLOCK_MOST};
    size_t most = PICK(chance, mosts);

    generate_words(chance, block, one_in(chance, 10) ? BLOCK_MOST : between(chance, BLOCK_LEAST, most));
}

void generate_cards(struct chance *chance, struct block *block)
{
    static const size_t lines[] = {1, 2, 3, 199};

    block_begin(block);
    add_cards(chance, block, LINE_WORDS * (one_in(chance, 2) ? PICK(chance, lines) : between(chance, 1, 199)));
    block_close(block);
}

/* Fields of a part that ends about where a line does. */
static size_t about_line(struct chance *chance, size_t least)
{
    size_t full = LINE_FIELDS * between(chance, 1, 4);

    return one_in(chance, 2) ? between(chance, full - 1, full + 1) : between(chance, least, 65);
}

/* Counts for parts of every number of lines from 0 on; with 8 such records no block is too large. */
static struct counts any_parts(struct chance *chance)
{
    static const size_t few[] = {0, 0, 1};
    struct counts counts = {about_line(chance, PROLOGUE_LEAST), about_line(chance, 0), about_line(chance, 0), 0};

    if (one_in(chance, 4))
        counts.lprol = PROLOGUE_LEAST;
    if (one_in(chance, 3))
        counts.jpar = PICK(chance, few);
    if (one_in(chance, 3))
        counts.mpar = PICK(chance, few);
    counts.nrow = between(chance, 0, counts.mpar > 1 ? 5 : 99);
    return counts;
}

/* Records of any kinds, whose parts end about where lines do. */
static void build_mixed(struct chance *chance, struct block *block)
{
    block_begin(block);
    for (size_t records = between(chance, 1, 8); records > 0; records--)
        if (one_in(chance, 3))
            add_cards(chance, block, LINE_WORDS * between(chance, 1, 4));
        else
            add_data(chance, block, any_parts(chance));
    block_close(block);
}

void generate_good(struct chance *chance, struct block *block)
{
    static const size_t mosts[] = {BLOCK_LEAST, 60, 120, 120, 300};

    if (one_in(chance, 12))
        build_mixed(chance, block);
    else if (one_in(chance, 12))
        generate_cards(chance, block);
    else
        generate_words(chance, block, between(chance, BLOCK_LEAST, PICK(chance, mosts)));
}

/* As many records as a block can have with a value in each. */
static void build_values(struct chance *chance, struct block *block)
{
    struct counts counts = {PROLOGUE_LEAST, 1, 0, 0};

    block_begin(block);
    while (block->words + counts.lprol + 2 * counts.jpar < BLOCK_MOST)
        add_data(chance, block, counts);
    block_close(block);
}

/* One Data record of the most words, whose parts are as chance wants them. */
static void build_record(struct chance *chance, struct block *block)
{
    block_begin(block);
    add_data(chance, block, counts_of(chance, WORDS_MOST));
    block_close(block);
}

void generate_amendable(struct chance *chance, struct block *block)
{
    if (one_in(chance, 60))
        build_values(chance, block);
    else if (one_in(chance, 60))
        build_record(chance, block);
    else if (one_in(chance, 4))
        build_mixed(chance, block);
    else
        generate_good(chance, block);
}

/* The block of the longest text, of about the most words, or of about the least. */
static void build_limit(struct chance *chance, struct block *block)
{
    if (one_in(chance, 20)) {
        fill_data(chance, block_of_most_data(block));
        block_seal(block);
    } else if (one_in(chance, 2)) {
        generate_words(chance, block, between(chance, BLOCK_MOST - 2, BLOCK_MOST + 2));
    } else {
        generate_words(chance, block, BLOCK_LEAST);
        block_resize(block, between(chance, BLOCK_LEAST - 3, BLOCK_LEAST + 1));
        block_seal(block);
    }
}

static void damage_once(struct chance *chance, struct block *block)
{
    build_any(chance, block);
    damage_records(chance, block);
    block_seal(block);
}

static void damage_twice(struct chance *chance, struct block *block)
{
    build_any(chance, block);
    damage_records(chance, block);
    damage_records(chance, block);
    block_seal(block);
}

static void damage_only_cards(struct chance *chance, struct block *block)
{
    generate_cards(chance, block);
    damage_cards(chance, block);
    block_seal(block);
}

static void damage_only_frame(struct chance *chance, struct block *block)
{
    build_any(chance, block);
    damage_frame(chance, block);
}

static void damage_both(struct chance *chance, struct block *block)
{
    damage_once(chance, block);
    damage_frame(chance, block);
}

/* Words that look like parts of records, in a right frame. */
static void build_noise(struct chance *chance, struct block *block)
{
    static const uint16_t kinds[] = {DATA, CATALOGUE, HEADER};

    block_begin(block);
    block_resize(block, between(chance, BLOCK_LEAST, 4 * LINE_WORDS));
    for (size_t number = 2; number < block->words; number++)
        put_word(block->bytes, number, telling_word(chance));
    put_word(block->bytes, 3, PICK(chance, kinds));
    block_seal(block);
}

/* Bytes without any sense; their length is even or odd, and may be 0. */
static void build_bytes(struct chance *chance, struct block *block)
{
    block_begin(block);
    block_resize(block, between(chance, 1, one_in(chance, 8) ? BLOCK_MOST + 2 : 60));
    fill_words(chance, block->bytes, 1, block->words);
    block->length = bytes_of(block->words) - between(chance, 0, 2);
    if (one_in(chance, 2))
        put_word(block->bytes, 1, (uint16_t)words_of(block->length));
}

struct chance case_chance(uint64_t seed, uint64_t number)
{
    struct chance chance = {seed};

    /* Mixed, so that neighbouring seeds and numbers share nothing. */
    chance.state = draw(&chance) + number;
    chance.state = draw(&chance);
    return chance;
}

void generate_block(struct chance *chance, uint64_t number, struct block *block)
{
    static void (*const recipes[])(struct chance *, struct block *) = {
        build_any,    build_mixed,  generate_cards,    build_limit,       damage_once, damage_once, build_mixed,
        damage_twice, damage_twice, damage_only_cards, damage_only_frame, damage_both, build_noise, build_bytes,
    };

    recipes[number % (sizeof recipes / sizeof recipes[0])](chance, block);
}

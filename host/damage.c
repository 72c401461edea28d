#include "damage.h"

#include <stdbool.h>

#include "words.h"

uint16_t telling_word(struct chance *chance)
{
    static const uint16_t words[] = {
        0, 1, 2, 15, 16, 17, 18, 24, 39, 40, 41, 80, 120, 7960, 7998, 8000,
        DATA, DATA_IN_LINES, CATALOGUE, CATALOGUE_IN_LINES, HEADER, HEADER_IN_LINES, 0x7fff, 0x8000, 0x8010, 0xffff,
    };

    return one_in(chance, 2) ? PICK(chance, words) : (uint16_t)draw(chance);
}

/* A record as it was built, whatever its words say by now. */
struct place {
    uint8_t *record;
    size_t words;
    size_t left; /* words from its first one to the last record word */
};

enum wanted { ANY_RECORD, CATALOGUE_OR_HEADER, DATA_RECORD };

static bool is_wanted(const uint8_t *record, enum wanted wanted)
{
    return wanted == ANY_RECORD || (word_at(record, 2) == DATA) == (wanted == DATA_RECORD);
}

/* The first wanted record from a random one on; it has 0 words if there is none. */
static struct place choose(struct chance *chance, struct block *block, enum wanted wanted)
{
    struct place place = {NULL, 0, 0};
    size_t k = between(chance, 0, block->records - 1);

    for (size_t i = 0; i < block->records && place.words == 0; i++, k = (k + 1) % block->records) {
        place.record = block->bytes + bytes_of(block->start[k]);
        if (is_wanted(place.record, wanted)) {
            place.words = block->start[k + 1] - block->start[k];
            place.left = block->start[block->records] - block->start[k];
        }
    }
    return place;
}

/* Row 4: words between the last record and the checksum. */
static void add_words(struct chance *chance, struct block *block)
{
    size_t old = block->words;

    block_resize(block, old + between(chance, 1, PROLOGUE_LEAST - 1));
    for (size_t number = old; number < block->words && one_in(chance, 2); number++)
        put_word(block->bytes, number, telling_word(chance));
}

/* Row 4: the last record loses all but its first words. */
static void cut_words(struct chance *chance, struct block *block)
{
    block_resize(block, block->start[block->records - 1] + between(chance, 1, PROLOGUE_LEAST));
}

/* Row 5: another kind, a neighbour of one, one of the lines, one with its bytes exchanged. */
static void change_kind(struct chance *chance, struct block *block)
{
    static const uint16_t kinds[] = {
        DATA,      1001, 1003, DATA_IN_LINES,      0xea03, /* Data */
        CATALOGUE, 2000, 2002, CATALOGUE_IN_LINES, 0xd107, /* Catalogue */
        HEADER,    3001, 3003, HEADER_IN_LINES,    0xba0b, /* Header */
    };
    struct place place = choose(chance, block, ANY_RECORD);

    put_word(place.record, 2, one_in(chance, 8) ? telling_word(chance) : PICK(chance, kinds));
}

/* Row 6: also multiples of 40 that are past the end, huge or negative. */
static void change_ltot(struct chance *chance, struct block *block)
{
    struct place place = choose(chance, block, ANY_RECORD);
    size_t next_line = LINE_WORDS * (place.left / LINE_WORDS + 1);
    const size_t ltots[] = {
        0, 15, 16, 39, 40, 41, 0x7fd0, 0xffd8, 0x7fff, 0x8000, telling_word(chance),
        place.left, place.left + 1, next_line, place.words - 1, place.words + 1, place.words + 15,
        place.words + LINE_WORDS, place.words - LINE_WORDS, place.words + 0x8000,
    };

    put_word(place.record, 1, (uint16_t)PICK(chance, ltots));
}

/* Rows 6 and 9: LTOT too low or too high; the last record gets the words that this LTOT speaks of. */
static void change_total(struct chance *chance, struct block *block)
{
    struct place place = choose(chance, block, ANY_RECORD);
    const size_t ltots[] = {
        place.words - 1, place.words + 1, place.words + 2, place.words + 3, place.words + LINE_WORDS / 2,
    };
    size_t ltot = PICK(chance, ltots);

    put_word(place.record, 1, (uint16_t)ltot);
    if (place.left == place.words)
        block_resize(block, block->words + ltot - place.words);
}

/* Row 6: the last record lacks its last word. */
static void drop_word(struct chance *chance, struct block *block)
{
    (void)chance;
    block_resize(block, block->words - 1);
}

/* Row 7. */
static void fill_zeros(struct chance *chance, struct block *block)
{
    struct place place = choose(chance, block, CATALOGUE_OR_HEADER);

    if (place.words < LINE_WORDS)
        return;
    do {
        size_t number = between(chance, CATALOGUE_ZERO, LINE_WORDS);

        put_word(place.record, number, (uint16_t)(1 << between(chance, 0, 15)));
    } while (one_in(chance, 3));
}

/* Row 8. */
static void spoil_card(struct chance *chance, struct block *block)
{
    static const uint8_t bytes[] = {0, 9, 10, 13, 31, 127, 128, 160, 254, 255};
    struct place place = choose(chance, block, CATALOGUE_OR_HEADER);
    size_t first = bytes_of(LINE_WORDS);

    if (place.words <= LINE_WORDS)
        return;
    do {
        size_t last = bytes_of(place.words) - 1;
        size_t byte = one_in(chance, 8) ? first : one_in(chance, 8) ? last : between(chance, first, last);

        place.record[byte] = PICK(chance, bytes);
    } while (one_in(chance, 3));
}

/* Row 9: a count under its least value, or another than the record is built for. */
static void change_count(struct chance *chance, struct block *block)
{
    struct place place = choose(chance, block, DATA_RECORD);
    size_t count = between(chance, LPROL, NROW);

    if (place.words == 0)
        return;
    do {
        uint16_t old = word_at(place.record, count);
        const uint16_t news[] = {
            (uint16_t)(old - 1), (uint16_t)(old + 1), (uint16_t)(old + 0x8000), 0x7fff, 0x8000, 0xffff, 15,
            telling_word(chance),
        };

        put_word(place.record, count, PICK(chance, news));
        count = between(chance, LPROL, NROW);
    } while (one_in(chance, 3));
}

/* Row 9: MPAR (NROW + 1) wraps to what is left beside LPROL and JPAR. */
static void wrap_product(struct chance *chance, uint8_t *record, size_t words)
{
    uint16_t product = (uint16_t)(words - word_at(record, LPROL) - 2 * word_at(record, JPAR));
    uint16_t mpar = (uint16_t)(draw(chance) & 0x7fff) | 1;
    uint16_t inverse = mpar;

    /* The low 3 bits of mpar * inverse are those of 1 at first; each step doubles their number. */
    for (int step = 0; step < 3; step++)
        inverse = (uint16_t)(inverse * (2u - (unsigned)mpar * inverse));
    put_word(record, MPAR, mpar);
    put_word(record, NROW, (uint16_t)((unsigned)product * inverse - 1));
}

/* Row 9: LPROL + 2 JPAR wraps to LTOT. */
static void wrap_sum(struct chance *chance, uint8_t *record, size_t words)
{
    size_t lprol = 2 * between(chance, PROLOGUE_LEAST, 0x3ffe) + words % 2;

    put_word(record, LPROL, (uint16_t)lprol);
    put_word(record, JPAR, (uint16_t)((0x10000 + words - lprol) / 2));
    put_word(record, MPAR, 0);
}

/* Row 9: NROW + 1 is no 16-bit number, and an even number of times it wraps to 0. */
static void wrap_rows(struct chance *chance, uint8_t *record, size_t words)
{
    put_word(record, LPROL, (uint16_t)words);
    put_word(record, JPAR, 0);
    put_word(record, MPAR, (uint16_t)(2 * between(chance, 1, 0x3fff)));
    put_word(record, NROW, 0x7fff);
}

/* Row 9: NROW + 1 taken for -32,768 makes up for a JPAR that is as much too large. */
static void wrap_sign(struct chance *chance, uint8_t *record, size_t words)
{
    (void)chance;
    put_word(record, LPROL, (uint16_t)(PROLOGUE_LEAST + words % 2));
    put_word(record, JPAR, (uint16_t)((0x8000 + words - PROLOGUE_LEAST) / 2));
    put_word(record, MPAR, 1);
    put_word(record, NROW, 0x7fff);
}

void wrap_counts(struct chance *chance, uint8_t *record, size_t words)
{
    static void (*const wraps[])(struct chance *, uint8_t *, size_t) = {wrap_product, wrap_sum, wrap_rows, wrap_sign};

    PICK(chance, wraps)(chance, record, words);
}

/* Row 9. */
static void wrap_total(struct chance *chance, struct block *block)
{
    struct place place = choose(chance, block, DATA_RECORD);

    if (place.words != 0)
        wrap_counts(chance, place.record, place.words);
}

/* Any word of a prologue, whatever comes of it. */
static void change_word(struct chance *chance, struct block *block)
{
    struct place place = choose(chance, block, ANY_RECORD);
    size_t number = between(chance, 1, PROLOGUE_LEAST);

    put_word(place.record, number, telling_word(chance));
}

void damage_cards(struct chance *chance, struct block *block)
{
    static void (*const faults[])(struct chance *, struct block *) = {
        change_total, drop_word, fill_zeros, spoil_card,
    };

    PICK(chance, faults)(chance, block);
}

void damage_records(struct chance *chance, struct block *block)
{
    static void (*const faults[])(struct chance *, struct block *) = {
        add_words,  cut_words,  change_kind,  change_ltot, change_total, drop_word,
        fill_zeros, spoil_card, change_count, wrap_total,  change_word,
    };

    PICK(chance, faults)(chance, block);
}

/* Row 1, and lengths that are right again when cut to 16 bits. */
static void change_length(struct chance *chance, struct block *block)
{
    size_t about_least = between(chance, 0, bytes_of(BLOCK_LEAST) + 3);
    size_t about_most = between(chance, bytes_of(BLOCK_MOST) - 3, bytes_of(BLOCK_MOST) + 3);
    const size_t lengths[] = {
        about_least, about_most, block->length - 2, block->length - 1, block->length + 1, block->length + 2,
        0x10000 + block->length, 0x20000 + block->length,
    };

    block_lend(block, PICK(chance, lengths));
}

/* Row 2, with the checksum wrong or put right. */
static void change_first_word(struct chance *chance, struct block *block)
{
    const size_t firsts[] = {
        block->words - 1, block->words + 1, block->words - 2, bytes_of(block->words), block->words + 0x8000,
        block->words << 8, 0, telling_word(chance),
    };

    put_word(block->bytes, 1, (uint16_t)PICK(chance, firsts));
    if (one_in(chance, 2))
        put_word(block->bytes, block->words, exclusive_or(block->bytes, block->words - 1));
}

/* Row 3: bits of the checksum, or of a word that it speaks for. */
static void flip_bits(struct chance *chance, struct block *block)
{
    size_t number = one_in(chance, 2) ? block->words : between(chance, 2, block->words);
    unsigned one = 1u << between(chance, 0, 15);
    const unsigned bits[] = {one, one ^ 0xffff, 0xffff, (unsigned)draw(chance)};

    put_word(block->bytes, number, (uint16_t)(word_at(block->bytes, number) ^ PICK(chance, bits)));
}

/* Two words exchanged, which the checksum does not show; often two of the first record's prologue. */
static void exchange_words(struct chance *chance, struct block *block)
{
    size_t reach = one_in(chance, 2) ? block->words : BLOCK_LEAST;
    size_t one = between(chance, 1, reach);
    size_t other = between(chance, 1, reach);
    uint16_t word = word_at(block->bytes, one);

    put_word(block->bytes, one, word_at(block->bytes, other));
    put_word(block->bytes, other, word);
}

/* Every word low byte first. */
static void exchange_bytes(struct chance *chance, struct block *block)
{
    (void)chance;
    for (size_t number = 1; number <= block->words; number++) {
        uint16_t word = word_at(block->bytes, number);

        put_word(block->bytes, number, (uint16_t)(word << 8 | word >> 8));
    }
}

void damage_frame(struct chance *chance, struct block *block)
{
    static void (*const faults[])(struct chance *, struct block *) = {
        change_length, change_first_word, flip_bits, flip_bits, exchange_words, exchange_words, exchange_bytes,
    };

    PICK(chance, faults)(chance, block);
}

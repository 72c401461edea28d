#include "generate_sheet.h"

#include "damage.h"
#include "generate.h"
#include "words.h"

uint16_t like_word(struct chance *chance, uint16_t word)
{
    const uint16_t words[] = {
        (uint16_t)(word + 1), (uint16_t)(word - 1), (uint16_t)(word ^ 1u << between(chance, 0, 15)),
        (uint16_t)(word << 8 | word >> 8), (uint16_t)-word, any_value(chance),
    };

    return PICK(chance, words);
}

/* Records that are there, and some that are not. */
static uint16_t guess_record(struct chance *chance, size_t records)
{
    const size_t others[] = {0, 0, records + 1, records + 1, records + 256, 0x8001, 0xffff, telling_word(chance)};

    if (records == 0 || one_in(chance, 6))
        return (uint16_t)PICK(chance, others);
    return (uint16_t)between(chance, 1, records);
}

/* About the ends of a record's parts; of other kinds the same words, as if they had counts. */
static uint16_t guess_word(struct chance *chance, const uint8_t *record, size_t words)
{
    size_t codes_end = (size_t)word_at(record, LPROL) + word_at(record, JPAR);
    size_t values_end = codes_end + word_at(record, JPAR);
    size_t rows_start = values_end + word_at(record, MPAR);
    const size_t ends[] = {word_at(record, LPROL), codes_end, values_end, rows_start, rows_start, words};
    const size_t others[] = {0, 0xffff, LINE_WORDS + 1, words + between(chance, 1, words), telling_word(chance)};

    if (one_in(chance, 8))
        return (uint16_t)PICK(chance, others);
    if (one_in(chance, 4))
        return (uint16_t)between(chance, 1, words);
    return (uint16_t)(PICK(chance, ends) + between(chance, 0, 1));
}

/* For a record that is not there, the word is one of the first or the last record. */
static size_t nearest_record(const struct block *block, uint16_t record)
{
    if (record == 0 || block->records == 0)
        return 1;
    return record <= block->records ? record : block->records;
}

/* Whether a prologue is there to guess by, which a damaged block may lack. */
static bool has_prologue(const struct block *block, size_t record)
{
    return block->records > 0 && block->start[record - 1] + PROLOGUE_LEAST <= block->words;
}

struct amendment guess_amendment(struct chance *chance, const struct block *block)
{
    struct amendment guess = {{guess_record(chance, block->records), telling_word(chance)}, any_value(chance), 0};
    size_t nearest = nearest_record(block, guess.place.record);
    size_t before = block->start[nearest - 1];

    if (has_prologue(block, nearest))
        guess.place.word = guess_word(chance, block->bytes + bytes_of(before), block->start[nearest] - before);
    if (guess.place.word != 0 && before + guess.place.word <= block->words)
        guess.old_value = word_at(block->bytes, before + guess.place.word);
    if (one_in(chance, 5))
        guess.old_value = like_word(chance, guess.old_value);
    guess.new_value = one_in(chance, 8) ? guess.old_value : any_value(chance);
    return guess;
}

struct amendment guess_entry(struct chance *chance, const struct block *block)
{
    struct amendment entry = guess_amendment(chance, block);
    uint16_t old_value = entry.old_value;

    entry.old_value = entry.new_value;
    entry.new_value = old_value;
    return entry;
}

void generate_sheet(struct chance *chance, const struct block *block, struct sheet *sheet)
{
    static const size_t counts[] = {0, 1, 2, STANDING_MOST - 1, STANDING_MOST};
    struct amendment entries[STANDING_MOST];
    size_t count = one_in(chance, 2) ? PICK(chance, counts) : between(chance, 0, STANDING_MOST);

    for (size_t i = 0; i < count; i++)
        entries[i] = guess_entry(chance, block);
    sheet_of(sheet, entries, count);
}

static void change_length(struct chance *chance, struct sheet *sheet)
{
    static const size_t lengths[] = {
        0, 1, 8, SHEET_BYTES / 2, SHEET_BYTES - 1, SHEET_BYTES + 1, 2 * SHEET_BYTES, SHEET_ROOM,
    };

    sheet_lend(sheet, PICK(chance, lengths));
}

/* Another byte for this one. */
static void change_byte(struct chance *chance, uint8_t *byte)
{
    const uint8_t bits[] = {(uint8_t)(1u << between(chance, 0, 7)), 0x20, 0xff, (uint8_t)between(chance, 1, 255)};

    *byte ^= PICK(chance, bits);
}

static void change_mark(struct chance *chance, struct sheet *sheet)
{
    change_byte(chance, &sheet->bytes[between(chance, 0, BEFORE_VERSION - 1)]);
}

/* Others, also the same with its bytes exchanged. */
static void change_version(struct chance *chance, struct sheet *sheet)
{
    static const uint16_t versions[] = {0, 2, 0x0100, 0x0101, 0x8001, 0xffff};

    put_word(sheet->bytes + BEFORE_VERSION, 1, PICK(chance, versions));
}

static void raise_count(struct chance *chance, struct sheet *sheet)
{
    size_t right = 256 * between(chance, 1, 255) + sheet_count(sheet);
    const size_t counts[] = {STANDING_MOST + 1, STANDING_MOST + 2, 2 * STANDING_MOST, right, 0x8000, 0xffff};

    sheet_set_count(sheet, PICK(chance, counts));
}

/* An entry or all of them are then past the count. */
static void lower_count(struct chance *chance, struct sheet *sheet)
{
    size_t count = sheet_count(sheet);

    if (count == 0)
        change_mark(chance, sheet);
    else
        sheet_set_count(sheet, one_in(chance, 2) ? count - 1 : between(chance, 0, count - 1));
}

static void change_zero_byte(struct chance *chance, struct sheet *sheet)
{
    change_byte(chance, &sheet->bytes[BEFORE_ZERO]);
}

/* Often the first or the last byte past the entries that stand; on a full sheet there is none. */
static void fill_entry(struct chance *chance, struct sheet *sheet)
{
    uint8_t *first = sheet_entry(sheet, sheet_count(sheet));
    uint8_t *last = sheet->bytes + SHEET_BYTES - 1;

    if (first > last)
        change_zero_byte(chance, sheet);
    else if (one_in(chance, 2))
        change_byte(chance, one_in(chance, 2) ? first : last);
    else
        change_byte(chance, first + between(chance, 0, (size_t)(last - first)));
}

/* Two words past the entries that stand, which neither the sum of all nor their exclusive or shows. */
static void fill_two_words(struct chance *chance, struct sheet *sheet)
{
    uint8_t *first = sheet_entry(sheet, sheet_count(sheet));
    size_t words = words_of(ENTRY_BYTES * (STANDING_MOST - sheet_count(sheet)));

    if (words == 0) {
        change_zero_byte(chance, sheet);
    } else {
        put_word(first, between(chance, 1, words / 2), 0x8000);
        put_word(first, between(chance, words / 2 + 1, words), 0x8000);
    }
}

void spoil_sheet(struct chance *chance, struct sheet *sheet)
{
    static void (*const faults[])(struct chance *, struct sheet *) = {
        change_length, change_mark,      change_version, raise_count,
        lower_count,   change_zero_byte, fill_entry,     fill_two_words,
    };

    PICK(chance, faults)(chance, sheet);
}

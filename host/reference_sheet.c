#include "reference.h"

#include <stdbool.h>
#include <string.h>

#include "cedar.h"
#include "format.h"
#include "words.h"

/* The numbers of an entry, in their order. */
enum { RECORD_NUMBER = 1, WORD_NUMBER, OLD_VALUE, NEW_VALUE };

static size_t standing_in(const uint8_t *sheet)
{
    return word_at(sheet + BEFORE_COUNT, 1);
}

static void set_standing(uint8_t *sheet, size_t standing)
{
    put_word(sheet + BEFORE_COUNT, 1, (uint16_t)standing);
}

/* The entry behind so many others. */
static uint8_t *entry_after(uint8_t *sheet, size_t others)
{
    return sheet + BEFORE_ENTRIES + ENTRY_BYTES * others;
}

static bool is_sheet(const uint8_t *sheet, size_t length)
{
    if (length != SHEET_BYTES || memcmp(sheet, SHEET_MARK, BEFORE_VERSION) != 0)
        return false;
    if (word_at(sheet + BEFORE_VERSION, 1) != SHEET_VERSION || standing_in(sheet) > STANDING_MOST)
        return false;
    if (sheet[BEFORE_ZERO] != 0)
        return false;
    for (size_t byte = BEFORE_ENTRIES + ENTRY_BYTES * standing_in(sheet); byte < SHEET_BYTES; byte++)
        if (sheet[byte] != 0)
            return false;
    return true;
}

/* The refusal of the block or of the sheet, or the number of the block's records. */
static uint64_t judge_both(const uint8_t *block, size_t block_length, const uint8_t *sheet, size_t sheet_length)
{
    uint64_t judged = reference_judge(block, block_length);

    return cedar_n(judged) == 0 && !is_sheet(sheet, sheet_length) ? pack(40, 0, 0, 0) : judged;
}

/* `judged` is the answer to the block. */
static bool has_record(uint64_t judged, uint16_t number)
{
    return number >= 1 && number <= cedar_a(judged);
}

static bool is_value(const uint8_t *record, size_t word)
{
    size_t before_values = (size_t)word_at(record, LPROL) + word_at(record, JPAR);
    size_t values_end = before_values + word_at(record, JPAR);
    size_t before_rows = values_end + word_at(record, MPAR);

    if (word_at(record, 2) != DATA)
        return false;
    return (word > before_values && word <= values_end) || (word > before_rows && word <= word_at(record, 1));
}

/* The place of a value in a record that the block has, or NULL if that word is none. */
static uint8_t *value_at(uint8_t *block, uint16_t number, uint16_t word)
{
    uint8_t *record = block + bytes_of(1);

    while (--number > 0)
        record += bytes_of(word_at(record, 1));
    return is_value(record, word) ? record + bytes_of(word - 1u) : NULL;
}

/* Writes the value at its place, and puts the checksum right. */
static void put_value(uint8_t *block, size_t block_length, uint8_t *place, uint16_t value)
{
    uint8_t *checksum = block + block_length - bytes_of(1);

    put_word(checksum, 1, word_at(checksum, 1) ^ word_at(place, 1) ^ value);
    put_word(place, 1, value);
}

uint64_t reference_sheet_start(uint8_t *sheet, size_t length)
{
    if (length != SHEET_BYTES)
        return pack(40, 0, 0, 0);
    memset(sheet, 0, SHEET_BYTES);
    memcpy(sheet, SHEET_MARK, BEFORE_VERSION);
    put_word(sheet + BEFORE_VERSION, 1, SHEET_VERSION);
    return pack(0, 0, 0, 0);
}

/* Adds the entry after the last, and gives the count that then stands. */
static size_t add_entry(uint8_t *sheet, uint16_t record, uint16_t word, uint16_t old_value, uint16_t new_value)
{
    size_t standing = standing_in(sheet);
    uint8_t *entry = entry_after(sheet, standing);

    put_word(entry, RECORD_NUMBER, record);
    put_word(entry, WORD_NUMBER, word);
    put_word(entry, OLD_VALUE, old_value);
    put_word(entry, NEW_VALUE, new_value);
    set_standing(sheet, standing + 1);
    return standing + 1;
}

uint64_t reference_amend(uint8_t *block, size_t block_length, uint8_t *sheet, size_t sheet_length, uint16_t record,
                         uint16_t word, uint16_t old_value, uint16_t new_value)
{
    uint64_t judged = judge_both(block, block_length, sheet, sheet_length);
    uint8_t *place;

    if (cedar_n(judged) != 0)
        return judged;
    if (standing_in(sheet) == STANDING_MOST)
        return pack(44, 0, 0, 0);
    if (!has_record(judged, record))
        return pack(41, 0, 0, 0);
    place = value_at(block, record, word);
    if (place == NULL)
        return pack(42, 0, 0, 0);
    if (word_at(place, 1) != old_value)
        return pack(43, word_at(place, 1), 0, 0);
    put_value(block, block_length, place, new_value);
    return pack(0, add_entry(sheet, record, word, old_value, new_value), 0, 0);
}

uint64_t reference_undo(uint8_t *block, size_t block_length, uint8_t *sheet, size_t sheet_length)
{
    uint64_t judged = judge_both(block, block_length, sheet, sheet_length);
    uint8_t *place, *entry;
    size_t standing;

    if (cedar_n(judged) != 0)
        return judged;
    standing = standing_in(sheet);
    if (standing == 0)
        return pack(45, 0, 0, 0);
    entry = entry_after(sheet, standing - 1);
    if (!has_record(judged, word_at(entry, RECORD_NUMBER)))
        return pack(46, 0, 0, 0);
    place = value_at(block, word_at(entry, RECORD_NUMBER), word_at(entry, WORD_NUMBER));
    if (place == NULL || word_at(place, 1) != word_at(entry, NEW_VALUE))
        return pack(46, 0, 0, 0);
    put_value(block, block_length, place, word_at(entry, OLD_VALUE));
    memset(entry, 0, ENTRY_BYTES);
    set_standing(sheet, standing - 1);
    return pack(0, standing - 1, 0, 0);
}

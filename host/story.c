#include "story.h"

#include <stdio.h>
#include <string.h>

#include "reference.h"
#include "words.h"

/* How far the block and its text are gone through. */
struct reached {
    size_t record; /* number of the record */
    size_t word;   /* words of the block before the next one */
    size_t column; /* bytes of the text before the next field */
};

/* Fields of one part, which begins on a new line and has 20 a line. */
static void map_part(struct story *story, struct reached *reached, size_t fields, bool values)
{
    for (size_t field = 1; field <= fields; field++) {
        size_t word = ++reached->word;
        struct place place = {(uint16_t)reached->record, (uint16_t)(word - story->first.start[reached->record - 1])};

        story->columns[word] = reached->column;
        reached->column += FIELD_COLUMNS + (field % LINE_FIELDS == 0 || field == fields);
        story->is_value[word] = values;
        if (values)
            story->value[story->values++] = place;
    }
}

static void map_data(struct story *story, struct reached *reached, const uint8_t *record)
{
    size_t jpar = word_at(record, JPAR);
    size_t mpar = word_at(record, MPAR);

    map_part(story, reached, word_at(record, LPROL), false);
    map_part(story, reached, jpar, false);
    map_part(story, reached, jpar, true);
    map_part(story, reached, mpar, false);
    for (size_t rows = word_at(record, NROW); rows > 0; rows--)
        map_part(story, reached, mpar, true);
}

/* A line of fields and cards, of which no word is a value. */
static void map_cards(struct story *story, struct reached *reached, const uint8_t *record)
{
    size_t words = word_at(record, 1);
    size_t cards = words / LINE_WORDS - 1;

    memset(story->is_value + reached->word + 1, false, words);
    reached->word += words;
    reached->column += LINE_COLUMNS + 1 + cards * (CARD_COLUMNS + 1);
}

void story_begin(struct story *story, const struct block *first)
{
    struct reached reached = {1, 1, 0};

    block_copy(&story->first, first);
    story->text_length = cedar_a(reference_to_lines(first->bytes, first->length, story->text, sizeof story->text));
    story->standing = 0;
    story->values = 0;
    for (; reached.record <= first->records; reached.record++) {
        const uint8_t *record = first->bytes + bytes_of(reached.word);

        (word_at(record, 2) == DATA ? map_data : map_cards)(story, &reached, record);
    }
}

/* The word of the block, numbered from 1. */
static size_t word_of(const struct story *story, struct place place)
{
    return story->first.start[place.record - 1] + place.word;
}

static bool has_record(const struct story *story, struct place place)
{
    return place.record != 0 && place.record <= story->first.records;
}

static bool names_value(const struct story *story, struct place place)
{
    size_t words = story->first.start[place.record] - story->first.start[place.record - 1];

    return place.word != 0 && place.word <= words && story->is_value[word_of(story, place)];
}

bool story_has(const struct story *story, struct place place)
{
    return has_record(story, place) && names_value(story, place);
}

uint16_t story_value(const struct story *story, struct place place)
{
    for (size_t i = story->standing; i > 0; i--) {
        struct place amended = story->stack[i - 1].place;

        if (amended.record == place.record && amended.word == place.word)
            return story->stack[i - 1].new_value;
    }
    return word_at(story->first.bytes, word_of(story, place));
}

uint64_t story_amend(struct story *story, struct amendment amendment)
{
    if (story->standing == STANDING_MOST)
        return pack(44, 0, 0, 0);
    if (!has_record(story, amendment.place))
        return pack(41, 0, 0, 0);
    if (!names_value(story, amendment.place))
        return pack(42, 0, 0, 0);
    if (story_value(story, amendment.place) != amendment.old_value)
        return pack(43, story_value(story, amendment.place), 0, 0);
    story->stack[story->standing++] = amendment;
    return pack(0, story->standing, 0, 0);
}

/* What stands last always stands in the block, so that 46 is not given. */
uint64_t story_undo(struct story *story)
{
    if (story->standing == 0)
        return pack(45, 0, 0, 0);
    return pack(0, --story->standing, 0, 0);
}

void story_block(const struct story *story, uint8_t *bytes)
{
    size_t words = story->first.words;

    memcpy(bytes, story->first.bytes, story->first.length);
    for (size_t i = 0; i < story->standing; i++)
        put_word(bytes, word_of(story, story->stack[i].place), story->stack[i].new_value);
    put_word(bytes, words, exclusive_or(bytes, words - 1));
}

void story_sheet(const struct story *story, struct sheet *sheet)
{
    sheet_of(sheet, story->stack, story->standing);
}

void story_text(const struct story *story, uint8_t *text)
{
    char field[16];

    memcpy(text, story->text, story->text_length);
    for (size_t i = 0; i < story->standing; i++) {
        snprintf(field, sizeof field, "%*d", FIELD_COLUMNS, (int16_t)story->stack[i].new_value);
        memcpy(text + story->columns[word_of(story, story->stack[i].place)], field, FIELD_COLUMNS);
    }
}

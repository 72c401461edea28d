#include "reference.h"

#include <stdbool.h>
#include <string.h>

#include "cedar.h"
#include "format.h"
#include "words.h"

/* A text as it is read: once to judge it, and once more to write its block. */
struct reader {
    const uint8_t *next, *end;       /* of the text, what is still to be read */
    const uint8_t *line;             /* the line that was read last */
    size_t number, columns;          /* of this line */
    int32_t values[1 + LINE_FIELDS]; /* of its fields, numbered from 1, as far as they were read */
    size_t words;                    /* of the records that were begun */
    uint8_t *to;                     /* where the next word goes; NULL while the text is judged */
    uint64_t answer;                 /* if it is refused */
};

/*
 * The functions below read on. They are true where nothing stands against it; otherwise they leave the refusal.
 * So a chain of them is the order in which the tests are made.
 */
static bool refuse(struct reader *reader, uint64_t n, size_t column)
{
    reader->answer = pack(n, reader->number, column, 0);
    return false;
}

static bool is_printed(uint8_t byte)
{
    return byte >= CARD_LEAST && byte <= CARD_MOST;
}

/* A line that is there. The first byte that is not printed must be its end. */
static bool read_line(struct reader *reader)
{
    const uint8_t *at = reader->next;
    const uint8_t *end = reader->end;

    while (at < end && is_printed(*at))
        at++;
    reader->line = reader->next;
    reader->columns = (size_t)(at - reader->line);
    reader->number++;
    if (reader->columns > LINE_COLUMNS)
        return refuse(reader, 20, LINE_COLUMNS + 1);
    if (end - at > 1 && at[0] == '\r' && at[1] == '\n')
        at++;
    if (at < end && *at++ != '\n')
        return refuse(reader, 20, reader->columns + 1);
    reader->next = at;
    return true;
}

/* A line that the record must still have. */
static bool read_next_line(struct reader *reader)
{
    if (reader->next < reader->end)
        return read_line(reader);
    reader->number++;
    return refuse(reader, 25, 1);
}

/* The first of these columns that is not blank, or 0. */
static size_t not_blank(const struct reader *reader, size_t first, size_t last)
{
    for (size_t column = first; column <= last && column <= reader->columns; column++)
        if (reader->line[column - 1] != ' ')
            return column;
    return 0;
}

/* From this column on. */
static bool read_blanks(struct reader *reader, size_t first)
{
    size_t column = not_blank(reader, first, LINE_COLUMNS);

    return column == 0 || refuse(reader, 26, column);
}

static size_t column_of(size_t field)
{
    return FIELD_COLUMNS * (field - 1) + 1;
}

static bool read_field(struct reader *reader, size_t field)
{
    const uint8_t *at = reader->line + column_of(field) - 1;
    const uint8_t *last = at + FIELD_COLUMNS - 1;
    int32_t value = 0;
    bool minus;

    /* A field that the line cuts short has a blank for its last digit. */
    if (FIELD_COLUMNS * field > reader->columns)
        return refuse(reader, 22, column_of(field));
    while (at < last && *at == ' ')
        at++;
    minus = *at == '-';
    if (at < last && (minus || *at == '+'))
        at++;
    for (; at <= last; at++) {
        if (*at < '0' || *at > '9')
            return refuse(reader, 22, column_of(field));
        value = 10 * value + (*at - '0');
    }
    value = minus ? -value : value;
    reader->values[field] = value;
    return (value >= INT16_MIN && value <= INT16_MAX) || refuse(reader, 22, column_of(field));
}

/* A word for each of the first values. */
static void write_values(struct reader *reader, size_t count)
{
    if (reader->to == NULL)
        return;
    for (size_t number = 1; number <= count; number++)
        put_word(reader->to, number, (uint16_t)reader->values[number]);
    reader->to += bytes_of(count);
}

/* Only the first two words are not as the fields are. */
static void write_first_line(struct reader *reader, size_t ltot, int32_t kind, size_t fields)
{
    reader->values[1] = (int32_t)ltot;
    reader->values[2] = kind;
    write_values(reader, fields);
}

static void write_zeros(struct reader *reader, size_t words)
{
    if (reader->to == NULL)
        return;
    memset(reader->to, 0, bytes_of(words));
    reader->to += bytes_of(words);
}

static void write_card(struct reader *reader)
{
    size_t columns = reader->columns < CARD_COLUMNS ? reader->columns : CARD_COLUMNS;

    if (reader->to == NULL)
        return;
    memcpy(reader->to, reader->line, columns);
    memset(reader->to + columns, ' ', CARD_COLUMNS - columns);
    reader->to += CARD_COLUMNS;
}

static bool read_fields(struct reader *reader, size_t first, size_t last)
{
    for (size_t field = first; field <= last; field++)
        if (!read_field(reader, field))
            return false;
    return true;
}

/* Fields that are blank or 0, from this one to the last. */
static bool read_zeros(struct reader *reader, size_t first)
{
    for (size_t field = first; field <= LINE_FIELDS; field++) {
        if (not_blank(reader, column_of(field), FIELD_COLUMNS * field) == 0)
            continue;
        if (!read_field(reader, field))
            return false;
        if (reader->values[field] != 0)
            return refuse(reader, 26, column_of(field));
    }
    return true;
}

static bool count_words(struct reader *reader, size_t words)
{
    reader->words += words;
    return reader->words <= WORDS_MOST || refuse(reader, 28, 1);
}

static bool read_cards(struct reader *reader, size_t cards)
{
    while (cards-- > 0) {
        if (!read_next_line(reader) || !read_blanks(reader, CARD_COLUMNS + 1))
            return false;
        write_card(reader);
    }
    return true;
}

static bool read_catalogue(struct reader *reader, int32_t kind, size_t first_zero)
{
    int32_t lines = reader->values[1];
    size_t words;

    if (!read_fields(reader, CATALOGUE_ZERO, first_zero - 1) || !read_zeros(reader, first_zero))
        return false;
    if (lines < 1 || lines > CARDS_LINES)
        return refuse(reader, 24, 1);
    words = LINE_WORDS * (size_t)lines;
    if (!count_words(reader, words))
        return false;
    write_first_line(reader, words, kind, first_zero - 1);
    write_zeros(reader, LINE_WORDS - (first_zero - 1));
    return read_cards(reader, (size_t)lines - 1);
}

static bool judge_counts(struct reader *reader)
{
    if (reader->values[LPROL] < PROLOGUE_LEAST)
        return refuse(reader, 27, column_of(LPROL));
    for (size_t field = JPAR; field <= NROW; field++)
        if (reader->values[field] < 0)
            return refuse(reader, 27, column_of(field));
    return true;
}

/* Fields on lines of their own. */
static bool read_part(struct reader *reader, size_t fields)
{
    while (fields > 0) {
        size_t here = fields_of_line(fields);

        if (!read_next_line(reader) || !read_fields(reader, 1, here) || !read_blanks(reader, column_of(here + 1)))
            return false;
        write_values(reader, here);
        fields -= here;
    }
    return true;
}

static bool read_rows(struct reader *reader, size_t rows, size_t fields)
{
    while (rows-- > 0)
        if (!read_part(reader, fields))
            return false;
    return true;
}

static bool read_data(struct reader *reader)
{
    const int32_t *values = reader->values;
    size_t lines = (size_t)values[1];
    size_t lprol, jpar, mpar, rows, ltot, here;

    if (!read_fields(reader, LPROL, NROW) || !judge_counts(reader))
        return false;
    lprol = (size_t)values[LPROL];
    jpar = (size_t)values[JPAR];
    mpar = (size_t)values[MPAR];
    /* The 2-D codes are one more row; without them no row takes a line. */
    rows = mpar > 0 ? (size_t)values[NROW] + 1 : 0;
    ltot = lprol + 2 * jpar + mpar * rows;
    here = fields_of_line(lprol);
    if (!read_fields(reader, NROW + 1, here) || !read_blanks(reader, column_of(here + 1)) || !count_words(reader, ltot))
        return false;
    if (lines != lines_of_fields(lprol) + 2 * lines_of_fields(jpar) + rows * lines_of_fields(mpar))
        return refuse(reader, 24, 1);
    write_first_line(reader, ltot, DATA, here);
    return read_part(reader, lprol - here) && read_part(reader, jpar) && read_part(reader, jpar) &&
           read_rows(reader, rows, mpar);
}

/* From its first line on, which was read. */
static bool read_record(struct reader *reader)
{
    if (!read_fields(reader, 1, CATALOGUE_ZERO - 1))
        return false;
    switch (reader->values[2]) {
    case CATALOGUE_IN_LINES:
        return read_catalogue(reader, CATALOGUE, CATALOGUE_ZERO);
    case HEADER_IN_LINES:
        return read_catalogue(reader, HEADER, HEADER_ZERO);
    case DATA_IN_LINES:
        return read_data(reader);
    default:
        return refuse(reader, 23, column_of(2));
    }
}

/* The refusal, or 0; the words of all records are left in the reader. */
static uint64_t read_records(struct reader *reader)
{
    while (reader->next < reader->end) {
        if (!read_line(reader))
            return reader->answer;
        if (not_blank(reader, 1, LINE_COLUMNS) != 0 && !read_record(reader))
            return reader->answer;
    }
    return reader->words == 0 ? pack(21, 0, 0, 0) : 0;
}

uint64_t reference_judge_lines(const uint8_t *text, size_t text_length)
{
    struct reader reader = {.next = text, .end = text + text_length};
    uint64_t refused;

    if (text_length > TEXT_MOST)
        return pack(30, 0, 0, 0);
    refused = read_records(&reader);
    return refused != 0 ? refused : pack(0, bytes_of(reader.words + 2), 0, 0);
}

uint64_t reference_write_block(const uint8_t *text, size_t text_length, uint8_t *block, size_t block_length)
{
    struct reader writer = {.next = text, .end = text + text_length};
    uint64_t judged = reference_judge_lines(text, text_length);
    size_t words = words_of(cedar_a(judged));

    if (cedar_n(judged) != 0)
        return judged;
    if (block_length < cedar_a(judged))
        return pack(29, cedar_a(judged), 0, 0);
    writer.to = block + bytes_of(1);
    read_records(&writer);
    put_word(block, 1, (uint16_t)words);
    put_word(block, words, exclusive_or(block, words - 1));
    return judged;
}

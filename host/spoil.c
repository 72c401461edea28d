#include "spoil.h"

#include <string.h>

#include "damage.h"
#include "words.h"

/* Bytes that no line may have, LF and CR among them. */
static const uint8_t bad_bytes[] = {0, 9, 10, 13, 13, 26, 31, 127, 128, 160, 255};

/* A line of one of these roles, often the one that was spoilt last; NULL if there is none. */
static struct line *choose(struct chance *chance, struct page *page, unsigned roles)
{
    size_t at = page->spoilt;

    if (page->lines == 0)
        return NULL;
    if (at >= page->lines || one_in(chance, 2))
        at = between(chance, 0, page->lines - 1);
    for (size_t i = 0; i < page->lines; i++, at = (at + 1) % page->lines)
        if ((page->line[at].role & roles) != 0) {
            page->spoilt = at;
            return &page->line[at];
        }
    return NULL;
}

/* Makes the line so long at least. */
static void reach(struct line *line, size_t columns)
{
    if (line->columns < columns)
        line->columns = columns;
}

static void put_number(struct line *line, size_t field, int32_t value)
{
    field_put(line, field, value);
    reach(line, FIELD_COLUMNS * field);
}

static void put_columns(struct line *line, size_t field, const char *columns)
{
    memcpy(field_at(line, field), columns, FIELD_COLUMNS);
    reach(line, FIELD_COLUMNS * field);
}

/* Row 22: also numbers that are just right, and the bytes beside the digits. */
static void spoil_field(struct chance *chance, struct page *page)
{
    static const char *const spelled[] = {
        "12    ", "    1 ", " 1 2 3", "1    2", "-32769", "032768", " 32768", "+32768", " 65541", "099999", "999999",
        "-99999", "-32768", "032767", "     -", "     +", "      ", "-     ", "   +-5", "   -+5", "   --5", "   ++5",
        "   - 5", "  5-5 ", "    5-", "    5+", "   1.0", "  1E01", "  0x1f", "  1,00", "     /", "     :", "    /5",
        "    :5", "/    5", "   5/5", "   5:5", "*    5", ",    5", "-    5", "+    5", "     A", "     a", "-----1",
    };
    struct line *line = choose(chance, page, WITH_FIELDS);
    const char *columns = PICK(chance, spelled);

    if (line != NULL)
        put_columns(line, between(chance, 1, line->fields), columns);
}

/* A field moved by a column, with all that stand behind it. */
static void shift_fields(struct chance *chance, struct page *page)
{
    struct line *line = choose(chance, page, WITH_FIELDS);
    uint8_t *field;

    if (line == NULL)
        return;
    field = field_at(line, between(chance, 1, line->fields));
    memmove(field + 1, field, (size_t)(line->bytes + LINE_COLUMNS - field));
    *field = ' ';
    reach(line, FIELD_COLUMNS * line->fields + 1);
}

/* Another number in any field, whatever comes of it. */
static void change_field(struct chance *chance, struct page *page)
{
    struct line *line = choose(chance, page, WITH_FIELDS);
    int32_t value = (int16_t)telling_word(chance);

    if (line != NULL)
        put_number(line, between(chance, 1, line->fields), value);
}

/* Row 23. */
static void change_kind(struct chance *chance, struct page *page)
{
    static const int32_t kinds[] = {
        DATA, DATA_IN_LINES, CATALOGUE, CATALOGUE_IN_LINES, HEADER, HEADER_IN_LINES, -DATA_IN_LINES, 0,
        1100, 1102,          2100,      2102,               3100,   3102,
    };
    struct line *line = choose(chance, page, FIRST);

    if (line != NULL)
        put_number(line, 2, PICK(chance, kinds));
}

/* Row 24, and 25 or 28 where the count may be. */
static void change_line_count(struct chance *chance, struct page *page)
{
    static const int32_t counts[] = {-32768, -1, 0, 1, 2, 198, 199, 199, 200, 200, 201, 256, 32767};
    struct line *line = choose(chance, page, FIRST);

    if (line != NULL && one_in(chance, 2))
        put_number(line, 1, PICK(chance, counts));
    else if (line != NULL)
        put_number(line, 1, field_value(line, 1) + (one_in(chance, 2) ? 1 : -1));
}

/* Rows 22 and 26, in the fields that must be zero and in those that stand there in other records. */
static void spoil_zeros(struct chance *chance, struct page *page)
{
    static const char *const spelled[] = {
        "     0", "000000", "    -0", "    +0", "      ", "     1", "    -1", "+00001", "100000", "032767",
        "-32768", "0     ", "    0 ", "     x", "     -", "x     ", "000001", " 65536", "     .",
    };
    struct line *line = choose(chance, page, CATALOGUE_FIRST | HEADER_FIRST);

    if (line == NULL)
        line = choose(chance, page, FIRST);
    if (line == NULL)
        return;
    do {
        const char *columns = PICK(chance, spelled);

        put_columns(line, between(chance, CATALOGUE_ZERO, LINE_FIELDS), columns);
    } while (one_in(chance, 3));
    /* Zeros may be cut off, but not in a field. */
    if (one_in(chance, 4))
        line->columns = between(chance, FIELD_COLUMNS * (CATALOGUE_ZERO - 1), line->columns);
}

/* Rows 24, 27 and 28. */
static void change_counts(struct chance *chance, struct page *page)
{
    struct line *line = choose(chance, page, DATA_FIRST);

    if (line == NULL)
        return;
    do {
        size_t count = between(chance, LPROL, NROW);
        int32_t old = field_value(line, count);
        const int32_t news[] = {old - 1, old + 1, old + LINE_FIELDS, -1, 0, 15, 16, 17, 7998, 32767, -32768};
        int32_t value = PICK(chance, news);

        put_number(line, count, value > INT16_MAX ? INT16_MAX : value);
    } while (one_in(chance, 2));
}

/* What the counts of a Data record's first line ask for. */
struct claim {
    size_t words, lines;
};

static struct claim claim_of(struct line *line)
{
    size_t lprol = (size_t)field_value(line, LPROL), jpar = (size_t)field_value(line, JPAR);
    size_t mpar = (size_t)field_value(line, MPAR), rows = (size_t)field_value(line, NROW) + 1;
    struct claim claim = {
        lprol + 2 * jpar + mpar * rows,
        lines_of_fields(lprol) + 2 * lines_of_fields(jpar) + lines_of_fields(mpar) * rows,
    };

    return claim;
}

/* The words that the records before this line have, if they are not spoilt. */
static size_t words_before(struct page *page, const struct line *end)
{
    size_t words = 0;

    for (struct line *line = page->line; line < end; line++)
        if (line->role == DATA_FIRST)
            words += claim_of(line).words;
        else if ((line->role & FIRST) != 0)
            words += LINE_WORDS * (size_t)field_value(line, 1);
    return words;
}

/* Counts of so many words, in one of the parts. */
static void claim_data(struct chance *chance, struct line *line, size_t words)
{
    size_t odd = words % 2;
    const size_t counts[][4] = {
        {words, 0, 0, between(chance, 0, INT16_MAX)},
        {PROLOGUE_LEAST + odd, (words - PROLOGUE_LEAST - odd) / 2, 0, 0},
        {PROLOGUE_LEAST, 0, 1, words - PROLOGUE_LEAST - 1},
        {PROLOGUE_LEAST, 0, words - PROLOGUE_LEAST, 0},
    };
    const size_t *count = PICK(chance, counts);

    for (size_t field = LPROL; field <= NROW; field++)
        put_number(line, field, (int32_t)count[field - LPROL]);
    for (size_t field = NROW + 1; field <= fields_of_line(count[0]); field++)
        put_number(line, field, 0);
    if (!one_in(chance, 4))
        put_number(line, 1, (int32_t)claim_of(line).lines);
}

/* Row 28, or just not: a record asks for about the words that those before it leave. */
static void claim_most(struct chance *chance, struct page *page)
{
    struct line *line = choose(chance, page, FIRST);
    size_t before = line == NULL ? WORDS_MOST : words_before(page, line);
    size_t words = WORDS_MOST - before + between(chance, 0, 2);

    if (before + 2 * LINE_WORDS > WORDS_MOST)
        return;
    if (line->role == DATA_FIRST)
        claim_data(chance, line, words);
    else
        put_number(line, 1, (int32_t)(words / LINE_WORDS + between(chance, 0, 1)));
}

/* Row 28: counts whose total is right only where 16 bits are too few for it; field 1 may be as much too low. */
static void wrap_total(struct chance *chance, struct page *page)
{
    struct line *line = choose(chance, page, DATA_FIRST);
    uint8_t record[WORD_BYTES * NROW];

    if (line == NULL)
        return;
    for (size_t count = LPROL; count <= NROW; count++)
        put_word(record, count, (uint16_t)field_value(line, count));
    wrap_counts(chance, record, between(chance, NROW + 2, 600));
    for (size_t count = LPROL; count <= NROW; count++)
        put_number(line, count, (int16_t)word_at(record, count));
    if (one_in(chance, 2))
        put_number(line, 1, (int16_t)claim_of(line).lines);
}

/* Row 26: in a column after the fields, or after a card; a blank line becomes a record's first. */
static void add_stray(struct chance *chance, struct page *page)
{
    static const uint8_t strays[] = {'0', '-', '+', '.', '!', '~'};
    struct line *line = choose(chance, page, ANY_LINE);
    size_t first, column;

    if (line == NULL)
        return;
    first = (line->role == CARD ? CARD_COLUMNS : FIELD_COLUMNS * line->fields) + 1;
    column = one_in(chance, 3) || first > LINE_COLUMNS ? first : between(chance, first, LINE_COLUMNS);
    line->bytes[column - 1] = PICK(chance, strays);
    reach(line, column);
}

/* Row 20. */
static void add_bad_byte(struct chance *chance, struct page *page)
{
    struct line *line = choose(chance, page, ANY_LINE);
    size_t column;

    if (line == NULL)
        return;
    column = one_in(chance, 8) ? 1 : between(chance, 1, one_in(chance, 2) ? LINE_COLUMNS + 2 : line->columns + 1);
    line->bytes[column - 1] = PICK(chance, bad_bytes);
    reach(line, column);
}

/* Row 20, and lines that are just short enough. */
static void lengthen(struct chance *chance, struct page *page)
{
    static const uint8_t lasts[] = {' ', ' ', '0', '\r'};
    struct line *line = one_in(chance, 2) ? choose(chance, page, BLANK) : NULL;

    if (line == NULL)
        line = choose(chance, page, ANY_LINE);
    if (line == NULL)
        return;
    line->columns = between(chance, LINE_COLUMNS - 1, LINE_COLUMNS + 2);
    line->bytes[line->columns - 1] = PICK(chance, lasts);
}

/* Row 22 where a field is cut; a card may lose its end. */
static void shorten(struct chance *chance, struct page *page)
{
    struct line *line = choose(chance, page, ANY_LINE);

    if (line != NULL && line->columns > 0)
        line->columns -= between(chance, 1, line->columns < 7 || one_in(chance, 4) ? line->columns : 7);
}

/* What may seem to end a line, to end it twice, or not to end it. */
static void change_end(struct chance *chance, struct page *page)
{
    static const char *const ends[] = {
        "", "\r", "\r\n", "\r\r\n", "\n\r", "\n\n", "\n\r\n", "\r\n\r\n", "\r \n", "\f\n",
    };
    struct line *line = choose(chance, page, ANY_LINE);

    if (line != NULL)
        line->end = PICK(chance, ends);
}

/* Row 25, or the next record's line in its place. */
static void drop_line(struct chance *chance, struct page *page)
{
    if (choose(chance, page, ANY_LINE) != NULL)
        page_remove(page, page->spoilt);
}

static void cut_page(struct chance *chance, struct page *page)
{
    page->lines = between(chance, 0, page->lines);
}

/* Also into records, where a blank line is a card or a bad line. */
static void add_line(struct chance *chance, struct page *page)
{
    const struct line *line = choose(chance, page, ANY_LINE);

    if (line != NULL && one_in(chance, 2))
        page_insert(page, between(chance, 0, page->lines), line);
    else
        page_insert_blank(page, between(chance, 0, page->lines));
}

static void exchange_lines(struct chance *chance, struct page *page)
{
    struct line *one = choose(chance, page, ANY_LINE);
    struct line *other = choose(chance, page, ANY_LINE);
    struct line copy;

    if (one == NULL)
        return;
    copy = *one;
    *one = *other;
    *other = copy;
}

void spoil_page(struct chance *chance, struct page *page)
{
    static void (*const faults[])(struct chance *, struct page *) = {
        spoil_field, spoil_field,       spoil_zeros,       spoil_zeros, shift_fields,   change_field,
        change_kind, change_line_count, change_line_count, add_stray,   add_stray,      change_counts,
        wrap_total,  claim_most,        claim_most,        lengthen,    shorten,        add_bad_byte,
        change_end,  drop_line,         cut_page,          add_line,    exchange_lines,
    };

    PICK(chance, faults)(chance, page);
}

/* Puts this byte so many times before another, or at the end, if there is room. */
static void insert_bytes(struct text *text, size_t at, size_t count, uint8_t byte)
{
    if (text->length + count > TEXT_ROOM)
        return;
    memmove(text->bytes + at + count, text->bytes + at, text->length - at);
    memset(text->bytes + at, byte, count);
    text->length += count;
}

static void remove_bytes(struct text *text, size_t at, size_t count)
{
    text->length -= count;
    memmove(text->bytes + at, text->bytes + at + count, text->length - at);
}

void spoil_text(struct chance *chance, struct text *text)
{
    static const uint8_t good_bytes[] = {' ', ' ', '0', '9', '-', '+', '~'};
    uint8_t byte = one_in(chance, 2) ? PICK(chance, good_bytes) : PICK(chance, bad_bytes);
    size_t at = between(chance, 0, text->length);
    size_t left = text->length - at;
    size_t most = one_in(chance, 4) ? 2 * LINE_COLUMNS : 2;

    switch (between(chance, 1, 4)) {
    case 1:
        text->length = at;
        break;
    case 2:
        insert_bytes(text, at, between(chance, 1, most), byte);
        break;
    case 3:
        remove_bytes(text, at, between(chance, 0, left < most ? left : most));
        break;
    default:
        if (left > 0)
            text->bytes[at] = byte;
    }
}

void fill_text(struct chance *chance, struct text *text, size_t length)
{
    static const size_t columns[] = {0, 0, 0, 1, LINE_COLUMNS - 1, LINE_COLUMNS};
    size_t line = PICK(chance, columns) + 1;
    size_t at = one_in(chance, 2) ? 0 : text->length;
    size_t added = length > text->length ? length - text->length : 0;

    insert_bytes(text, at, added, ' ');
    for (size_t left = 1; left <= added; left += line)
        text->bytes[at + added - left] = '\n';
}

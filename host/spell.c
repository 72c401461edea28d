#include "spell.h"

#include <stdio.h>
#include <stdlib.h>
#include <string.h>

static void spell_number(struct chance *chance, struct line *line, size_t field)
{
    static const char *const of_zero[] = {"", "+", "-"};
    static const char *const of_more[] = {"", "+"};
    int32_t value = field_value(line, field);
    const char *sign = value < 0 ? "-" : value == 0 ? PICK(chance, of_zero) : PICK(chance, of_more);
    size_t digits = between(chance, 1, FIELD_COLUMNS - strlen(sign));
    char number[16], spelled[16];

    snprintf(number, sizeof number, "%s%0*d", sign, (int)digits, abs(value));
    snprintf(spelled, sizeof spelled, "%*s", FIELD_COLUMNS, number);
    memcpy(field_at(line, field), spelled, FIELD_COLUMNS);
}

/* The first field that may be blank, if any may. */
static size_t first_zero(const struct line *line)
{
    return line->role == CATALOGUE_FIRST ? CATALOGUE_ZERO : line->role == HEADER_FIRST ? HEADER_ZERO : LINE_FIELDS + 1;
}

static void spell_fields(struct chance *chance, struct line *line, size_t times)
{
    bool blank = one_in(chance, 3);

    for (size_t field = 1; field <= line->fields; field++)
        if (field >= first_zero(line) && (blank || one_in(chance, 2)))
            memset(field_at(line, field), ' ', FIELD_COLUMNS);
        else if (one_in(chance, times))
            spell_number(chance, line, field);
}

static size_t last_not_blank(const struct line *line)
{
    size_t column = LINE_COLUMNS;

    while (column > 0 && line->bytes[column - 1] == ' ')
        column--;
    return column;
}

/* Fewer blanks at the line's end, or more. */
static void spell_filling(struct chance *chance, struct line *line)
{
    size_t least = last_not_blank(line);
    const size_t columns[] = {least, between(chance, least, LINE_COLUMNS), LINE_COLUMNS};

    line->columns = PICK(chance, columns);
}

static void insert_blank_line(struct chance *chance, struct page *page)
{
    size_t at = between(chance, 0, page->lines);

    while (at < page->lines && (page->line[at].role & FIRST) == 0)
        at++;
    page_insert_blank(page, at);
}

void spell_page(struct chance *chance, struct page *page)
{
    static const size_t often[] = {1, 3, 20, 1000};
    static const char *const ends[] = {"\n", "\r\n"};
    size_t fields = PICK(chance, often), fillings = PICK(chance, often), other_ends = PICK(chance, often);
    const char *end = PICK(chance, ends);

    for (size_t blanks = between(chance, 0, 3); blanks > 0; blanks--)
        insert_blank_line(chance, page);
    for (size_t i = 0; i < page->lines; i++) {
        struct line *line = &page->line[i];

        if (one_in(chance, fields))
            spell_fields(chance, line, fields);
        if (one_in(chance, fillings))
            spell_filling(chance, line);
        line->end = one_in(chance, other_ends) ? PICK(chance, ends) : end;
    }
    if (one_in(chance, 3))
        page->line[page->lines - 1].end = "";
}

#include "page.h"

#include <stdio.h>
#include <stdlib.h>
#include <string.h>

#include "cedar.h"
#include "reference.h"

uint8_t *field_at(struct line *line, size_t field)
{
    return line->bytes + FIELD_COLUMNS * (field - 1);
}

int32_t field_value(struct line *line, size_t field)
{
    char digits[FIELD_COLUMNS + 1] = "";

    memcpy(digits, field_at(line, field), FIELD_COLUMNS);
    return (int32_t)strtol(digits, NULL, 10);
}

void field_put(struct line *line, size_t field, int32_t value)
{
    char digits[16];

    snprintf(digits, sizeof digits, "%*ld", FIELD_COLUMNS, (long)value);
    memcpy(field_at(line, field), digits, FIELD_COLUMNS);
}

/* The line at these bytes, up to their LF; a standard line has no filling, so its columns tell its fields. */
static void read_line(struct line *line, const uint8_t *bytes)
{
    memset(line->bytes, ' ', sizeof line->bytes);
    for (line->columns = 0; bytes[line->columns] != '\n'; line->columns++)
        line->bytes[line->columns] = bytes[line->columns];
    line->fields = line->columns / FIELD_COLUMNS;
    line->end = "\n";
}

static enum role role_of_first(struct line *first)
{
    switch (field_value(first, 2)) {
    case CATALOGUE_IN_LINES:
        return CATALOGUE_FIRST;
    case HEADER_IN_LINES:
        return HEADER_FIRST;
    default:
        return DATA_FIRST;
    }
}

void page_begin(struct page *page)
{
    page->lines = 0;
    page->spoilt = 0;
}

void page_add(struct page *page, const struct block *block)
{
    static uint8_t text[CEDAR_TEXT_MOST];
    size_t length = cedar_a(reference_to_lines(block->bytes, block->length, text, sizeof text));
    enum role later = BLANK;
    int32_t left = 0; /* lines that the record still has */

    for (size_t at = 0; at < length && page->lines < PAGE_LINES; left--) {
        struct line *line = &page->line[page->lines++];

        read_line(line, text + at);
        at += line->columns + 1;
        line->role = later;
        if (left == 0) {
            left = field_value(line, 1);
            line->role = role_of_first(line);
            later = line->role == DATA_FIRST ? DATA_LATER : CARD;
        }
        if (line->role == CARD)
            line->fields = 0;
    }
}

void page_insert(struct page *page, size_t at, const struct line *line)
{
    struct line copy = *line;

    if (page->lines == PAGE_LINES)
        return;
    memmove(&page->line[at + 1], &page->line[at], (page->lines - at) * sizeof copy);
    page->line[at] = copy;
    page->lines++;
}

void page_insert_blank(struct page *page, size_t at)
{
    struct line blank;

    read_line(&blank, (const uint8_t *)"\n");
    blank.role = BLANK;
    page_insert(page, at, &blank);
}

void page_remove(struct page *page, size_t at)
{
    page->lines--;
    memmove(&page->line[at], &page->line[at + 1], (page->lines - at) * sizeof page->line[at]);
}

void page_print(const struct page *page, struct text *text)
{
    text->length = 0;
    for (size_t i = 0; i < page->lines && text->length + LINE_ROOM + 2 <= TEXT_ROOM; i++) {
        const struct line *line = &page->line[i];

        memcpy(text->bytes + text->length, line->bytes, line->columns);
        text->length += line->columns;
        memcpy(text->bytes + text->length, line->end, strlen(line->end));
        text->length += strlen(line->end);
    }
}

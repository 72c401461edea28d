/* Texts as lines that can be changed one by one. */
#ifndef PAGE_H
#define PAGE_H

#include <stddef.h>
#include <stdint.h>

#include "blocks.h"
#include "format.h"

/* Bytes: enough for a length that is a text's again when it is cut to 16 bits. */
enum { TEXT_ROOM = 2 * TEXT_MOST };

struct text {
    size_t length;
    uint8_t bytes[TEXT_ROOM];
};

/* What a line was in the standard text. */
enum role { BLANK = 1, CATALOGUE_FIRST = 2, HEADER_FIRST = 4, DATA_FIRST = 8, CARD = 16, DATA_LATER = 32 };

/* The lines that begin a record, those that hold fields, and all. */
enum {
    FIRST = CATALOGUE_FIRST | HEADER_FIRST | DATA_FIRST,
    WITH_FIELDS = FIRST | DATA_LATER,
    ANY_LINE = WITH_FIELDS | CARD | BLANK,
};

enum { LINE_ROOM = LINE_COLUMNS + 8 };

struct line {
    enum role role;
    size_t fields;   /* that it holds */
    size_t columns;  /* that it has; behind them it is blank as far as there is room */
    const char *end; /* what ends it */
    uint8_t bytes[LINE_ROOM];
};

/* The lines of two blocks, and some between them. */
enum { PAGE_LINES = BLOCK_MOST + 2 * EXCESS };

struct page {
    size_t lines;
    struct line line[PAGE_LINES];
    size_t spoilt; /* the line that was spoilt last */
};

void page_begin(struct page *page);

/* Adds the standard lines of a block that is accepted. */
void page_add(struct page *page, const struct block *block);

/* Puts a line, or a blank one, before another or at the end, if the page has room; `line` may be one of the page's. */
void page_insert(struct page *page, size_t at, const struct line *line);
void page_insert_blank(struct page *page, size_t at);

void page_remove(struct page *page, size_t at);

/* The page as one text; what it has no room for is left out. */
void page_print(const struct page *page, struct text *text);

/* The six columns of a field, numbered from 1. */
uint8_t *field_at(struct line *line, size_t field);

/* Its value, where it holds a number. */
int32_t field_value(struct line *line, size_t field);

/* Writes a number right-justified; one that is too wide loses its last figures. */
void field_put(struct line *line, size_t field, int32_t value);

#endif

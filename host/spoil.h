/* Damage to a text. */
#ifndef SPOIL_H
#define SPOIL_H

#include "chance.h"
#include "page.h"

/* One fault in the lines (rows 20 to 28), often in the line that was spoilt last. */
void spoil_page(struct chance *chance, struct page *page);

/* One fault in the bytes. */
void spoil_text(struct chance *chance, struct text *text);

/* Makes the text so long by blank lines before or after it, unless it is longer. */
void fill_text(struct chance *chance, struct text *text, size_t length);

#endif

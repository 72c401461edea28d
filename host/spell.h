/* Texts in other spellings that are read as the same. */
#ifndef SPELL_H
#define SPELL_H

#include "chance.h"
#include "page.h"

/* Plus signs, leading zeros, minus 0, blanks for 0, line ends, filling, cut blanks, blank lines outside of records. */
void spell_page(struct chance *chance, struct page *page);

#endif

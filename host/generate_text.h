/* Texts by chance, valid and spoilt. */
#ifndef GENERATE_TEXT_H
#define GENERATE_TEXT_H

#include <stdint.h>

#include "chance.h"
#include "page.h"

/* The text of a case, made with its chance. */
void generate_text(struct chance *chance, uint64_t number, struct text *text);

#endif

/* Amendment sheets put together from their entries. */
#ifndef SHEETS_H
#define SHEETS_H

#include <stddef.h>
#include <stdint.h>

#include "format.h"

/* Bytes: enough for a length that is a sheet's again when it is cut to 16 bits. */
enum { SHEET_ROOM = 65536 + SHEET_BYTES };

struct sheet {
    size_t length; /* the bytes to lend: 520, unless it is broken */
    uint8_t bytes[SHEET_ROOM];
};

/* A word of a record, both numbered from 1. */
struct place {
    uint16_t record, word;
};

struct amendment {
    struct place place;
    uint16_t old_value, new_value;
};

/* The sheet on which these stand, oldest first. */
void sheet_of(struct sheet *sheet, const struct amendment *amendments, size_t count);

void sheet_copy(struct sheet *to, const struct sheet *from);

/* Sets the length alone; bytes that it adds are 0. */
void sheet_lend(struct sheet *sheet, size_t length);

/* What the sheet says of its entries: their count, and the bytes of the entry behind so many others. */
size_t sheet_count(const struct sheet *sheet);
void sheet_set_count(struct sheet *sheet, size_t count);
uint8_t *sheet_entry(struct sheet *sheet, size_t others);

#endif

#include "sheets.h"

#include <string.h>

#include "words.h"

uint8_t *sheet_entry(struct sheet *sheet, size_t others)
{
    return sheet->bytes + BEFORE_ENTRIES + ENTRY_BYTES * others;
}

size_t sheet_count(const struct sheet *sheet)
{
    return word_at(sheet->bytes + BEFORE_COUNT, 1);
}

void sheet_set_count(struct sheet *sheet, size_t count)
{
    put_word(sheet->bytes + BEFORE_COUNT, 1, (uint16_t)count);
}

static void put_entry(uint8_t *entry, struct amendment amendment)
{
    const uint16_t numbers[] = {
        amendment.place.record, amendment.place.word, amendment.old_value, amendment.new_value,
    };

    for (size_t i = 0; i < sizeof numbers / sizeof numbers[0]; i++)
        put_word(entry, 1 + i, numbers[i]);
}

void sheet_of(struct sheet *sheet, const struct amendment *amendments, size_t count)
{
    static const uint8_t mark_and_version[] = {'A', 'M', 'D', 0, 1};

    sheet->length = SHEET_BYTES;
    memset(sheet->bytes, 0, SHEET_BYTES);
    memcpy(sheet->bytes, mark_and_version, sizeof mark_and_version);
    sheet_set_count(sheet, count);
    for (size_t i = 0; i < count; i++)
        put_entry(sheet_entry(sheet, i), amendments[i]);
}

void sheet_copy(struct sheet *to, const struct sheet *from)
{
    to->length = from->length;
    memcpy(to->bytes, from->bytes, from->length);
}

void sheet_lend(struct sheet *sheet, size_t length)
{
    if (length > sheet->length)
        memset(sheet->bytes + sheet->length, 0, length - sheet->length);
    sheet->length = length;
}

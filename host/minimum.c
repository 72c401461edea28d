#include "minimum.h"

static void add_records(const uint8_t *block, struct records *records)
{
    size_t words = word_at(block, 1);

    for (size_t before = 1; before < words - 1; before += word_at(block, before + 1)) {
        records->record[records->count++] = block + bytes_of(before);
        records->words += word_at(block, before + 1);
    }
}

size_t records_of(const uint8_t *blocks, size_t length, struct records *records)
{
    size_t count = 0;

    records->count = 0;
    records->words = 0;
    for (size_t before = 0; before < length; before += bytes_of(word_at(blocks + before, 1))) {
        add_records(blocks + before, records);
        count++;
    }
    return count;
}

/* For so many records, from what is known for fewer: the best place for the last cut. */
static size_t fewest_for(const struct records *records, size_t count, const size_t *fewest)
{
    size_t words = word_at(records->record[count - 1], 1);
    size_t best = fewest[count - 1] + 1;

    for (size_t before = count - 1; before > 0; before--) {
        words += word_at(records->record[before - 1], 1);
        if (words > WORDS_MOST)
            break;
        if (fewest[before - 1] + 1 < best)
            best = fewest[before - 1] + 1;
    }
    return best;
}

size_t fewest_blocks(const struct records *records)
{
    static size_t fewest[sizeof records->record / sizeof records->record[0] + 1];

    for (size_t count = 1; count <= records->count; count++)
        fewest[count] = fewest_for(records, count, fewest);
    return fewest[records->count];
}

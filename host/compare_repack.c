#include "compare_repack.h"

#include <stdio.h>
#include <string.h>

#include "cedar.h"
#include "conversions.h"
#include "generate_slice.h"
#include "minimum.h"

static uint64_t make_repack(const struct trial *trial)
{
    const struct lent *blocks = &trial->lent[0], *out = &trial->lent[1];

    return cedar_repack(blocks->copy, blocks->length, out->copy, out->length);
}

/* A block's own 2 cannot be: the block is as long as its first word says. */
#define REPACK_ANSWERS ((BLOCK_ANSWERS & ~ANSWER(2)) | ANSWER(50) | ANSWER(51) | ANSWER(52))

static struct call repack = {"repack", make_repack, 2, 0, REPACK_ANSWERS, {0}};

static struct lent lend_slice(const struct slice *slice)
{
    struct lent lent = {"slice", slice->length, slice->bytes, slice->bytes, NULL, FIRST_BYTES};

    return lent;
}

static void compare_length(struct trials *trials, struct chance *chance, const struct slice *slice, size_t length)
{
    compare_output(trials, chance, &repack, reference_repack, lend_slice(slice), length);
}

/* Outputs about as long as the slice needs; a slice that is refused, or needs none, gets one of any length. */
static void compare_lengths(struct trials *trials, struct chance *chance, const struct slice *slice)
{
    uint64_t answer = reference_repack(slice->bytes, slice->length, NULL, 0);
    size_t needed = cedar_n(answer) == 50 ? cedar_a(answer) : between(chance, 2, SLICE_BYTES);
    const size_t lengths[] = {
        0, needed - 2, needed - 1, needed, needed + 1, slice->length, between(chance, 0, 2 * needed), 65535 + needed,
    };

    if (cedar_n(answer) != 50)
        compare_length(trials, chance, slice, PICK(chance, lengths));
    else
        for (size_t i = 0; i < sizeof lengths / sizeof lengths[0]; i++)
            compare_length(trials, chance, slice, lengths[i]);
}

/* Whether both judges accept the block at the front. */
static bool front_accepted(const uint8_t *block, size_t left)
{
    size_t length = left < bytes_of(1) ? 0 : bytes_of(word_at(block, 1));

    return length > 0 && length <= left && cedar_n(cedar_judge(block, length)) == 0 &&
           cedar_n(reference_judge(block, length)) == 0;
}

static bool all_accepted(const uint8_t *blocks, size_t length)
{
    size_t before = 0;

    while (before < length && front_accepted(blocks + before, length - before))
        before += bytes_of(word_at(blocks + before, 1));
    return before == length;
}

static bool same_records(const struct records *one, const struct records *other)
{
    bool same = one->count == other->count;

    for (size_t i = 0; i < one->count && same; i++)
        same = memcmp(one->record[i], other->record[i], bytes_of(word_at(one->record[i], 1))) == 0;
    return same;
}

/* What comes out of the blocks that came out. */
static bool stays_packed(const uint8_t *blocks, size_t length)
{
    static uint8_t again[SLICE_BYTES];

    return cedar_repack(blocks, length, again, length) == pack(0, length, 0, 0) && memcmp(again, blocks, length) == 0;
}

/* What the library makes of a good slice, in an output as long as the slice, which always suffices. */
static void check_packing(struct trials *trials, const struct slice *slice)
{
    static struct records before, after;
    static uint8_t out[SLICE_BYTES];
    uint64_t answer = cedar_repack(slice->bytes, slice->length, out, slice->length);
    size_t length = cedar_a(answer), fewest;
    bool good = cedar_n(answer) == 0 && length <= slice->length && all_accepted(out, length);

    case_fails(trials, "good blocks in the slice's length", good);
    if (!good)
        return;
    records_of(slice->bytes, slice->length, &before);
    fewest = fewest_blocks(&before);
    case_fails(trials, "fewest blocks", records_of(out, length, &after) == fewest);
    case_fails(trials, "the same records", same_records(&before, &after));
    case_fails(trials, "the total of record words", length == bytes_of(before.words + 2 * fewest));
    case_fails(trials, "the same when repacked", stays_packed(out, length));
}

/* A slice of so many bytes: K so many times, a word, and zeros; what it gives in an output of so many bytes. */
struct example {
    const char *what;
    size_t blocks, length;
    uint16_t next;
    size_t room;
    uint64_t n, a, c;
};

static const struct example examples[] = {
    {"no block", 0, 0, 0, 0, 0, 0, 0},
    {"K", 1, 52, 0, 52, 0, 52, 0},
    {"K in 51 bytes", 1, 52, 0, 51, 50, 52, 0},
    {"two K", 2, 104, 0, 100, 0, 100, 0},
    {"333 K, one block", 333, 17316, 0, 15988, 0, 15988, 0},
    {"334 K, two blocks", 334, 17368, 0, 16040, 0, 16040, 0},
    {"334 K in 16,039 bytes", 334, 17368, 0, 16039, 50, 16040, 0},
    {"a byte", 0, 1, 0, 0, 51, 1, 0},
    {"K and a byte", 1, 53, 0, 0, 51, 2, 0},
    {"two K less a byte", 2, 103, 0, 0, 51, 2, 0},
    {"K and a word 17", 1, 54, 17, 0, 1, 0, 0},
    {"K and a word 18", 1, 54, 18, 0, 51, 2, 0},
    {"K and a word 8,000", 1, 54, 8000, 0, 51, 2, 0},
    {"K and a word 8,001", 1, 54, 8001, 0, 1, 0, 0},
    {"18 words with a wrong checksum, and a byte", 0, 37, 18, 0, 3, 0, 2},
    {"64,000 bytes of zeros", 0, 64000, 0, 0, 1, 0, 0},
    {"64,001 bytes of zeros", 0, 64001, 0, 0, 52, 0, 0},
};

static void build_example(const struct example *example, struct slice *slice)
{
    static struct block k;

    block_of_k(&k);
    slice_begin(slice);
    for (size_t i = 0; i < example->blocks; i++)
        slice_add(slice, &k);
    slice_lend(slice, slice->length + bytes_of(1));
    put_word(slice->bytes + slice->length - bytes_of(1), 1, example->next);
    slice_lend(slice, example->length);
}

static bool gives(conversion *call, const struct example *example, const struct slice *slice)
{
    static uint8_t out[SLICE_BYTES];

    return call(slice->bytes, slice->length, out, example->room) == pack(example->n, example->a, 0, example->c);
}

void check_repack(struct tally *tally)
{
    static struct slice slice;

    for (size_t i = 0; i < sizeof examples / sizeof examples[0]; i++) {
        const struct example *example = &examples[i];

        build_example(example, &slice);
        if (tally_fails(tally, gives(cedar_repack, example, &slice) && gives(reference_repack, example, &slice)))
            printf("FAILED repack of %s\n", example->what);
    }
}

void compare_repack(struct trials *trials, struct chance *chance)
{
    enum { EACH = 8 };
    static struct slice slice;

    if (trials->number % EACH != 0)
        return;
    generate_slice(chance, trials->number / EACH, &slice);
    compare_lengths(trials, chance, &slice);
    if (cedar_n(reference_repack(slice.bytes, slice.length, NULL, 0)) == 50)
        check_packing(trials, &slice);
}

void print_repack_reached(struct trials *trials)
{
    print_reached(trials, &repack);
}

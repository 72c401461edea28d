/*
 * Compares the library's calls with the reference's, on the examples of document 01, and by chance on blocks and texts,
 * on amendments and on slices of blocks.
 *
 *   compare [-s SEED] [-n CASES]   all comparisons, with so many blocks and texts
 *   compare [-s SEED] -c CASE      those of this case only
 */
#define _POSIX_C_SOURCE 200809L
#include <inttypes.h>
#include <stdio.h>
#include <stdlib.h>
#include <string.h>
#include <unistd.h>

#include "cedar.h"
#include "compare_repack.h"
#include "compare_sheet.h"
#include "conversions.h"
#include "generate.h"
#include "generate_text.h"
#include "paper.h"
#include "reference.h"
#include "trial.h"

/* Answers of a text: 0, and 20 to 30; judging asks for no output, so it never gives 29. */
#define TEXT_ANSWERS UINT64_C(0x7ff00001)
#define JUDGED_ANSWERS (TEXT_ANSWERS & ~ANSWER(29))

static uint64_t make_judge(const struct trial *trial)
{
    return cedar_judge(trial->lent[0].copy, trial->lent[0].length);
}

static uint64_t make_to_lines(const struct trial *trial)
{
    const struct lent *block = &trial->lent[0], *text = &trial->lent[1];

    return cedar_to_lines(block->copy, block->length, text->copy, text->length);
}

static uint64_t make_judge_lines(const struct trial *trial)
{
    return cedar_judge_lines(trial->lent[0].copy, trial->lent[0].length);
}

static uint64_t make_write_block(const struct trial *trial)
{
    const struct lent *text = &trial->lent[0], *block = &trial->lent[1];

    return cedar_write_block(text->copy, text->length, block->copy, block->length);
}

static struct call judge = {"judge", make_judge, 1, 0, BLOCK_ANSWERS, {0}};
static struct call to_lines = {"to lines", make_to_lines, 2, 0, BLOCK_ANSWERS | ANSWER(29), {0}};
static struct call judge_lines = {"judge lines", make_judge_lines, 1, 0, JUDGED_ANSWERS, {0}};
static struct call write_block = {"write block", make_write_block, 2, 0, TEXT_ANSWERS, {0}};

/* Buffers that the call must leave as they are. */
static struct lent lend_block(const struct block *block)
{
    struct lent lent = {"block", block->length, block->bytes, block->bytes, NULL, FIRST_BYTES};

    return lent;
}

static struct lent lend_text(const struct text *text)
{
    struct lent lent = {"text", text->length, text->bytes, text->bytes, NULL, CHARACTERS};

    return lent;
}

static void compare_judge(struct trials *trials, const struct block *block)
{
    struct trial trial = {&judge, reference_judge(block->bytes, block->length), {lend_block(block)}, {0}};

    try_call(trials, &trial);
}

/* Texts about as long as the block needs; a block that is refused needs none, and gets one of any length. */
static void compare_to_lines(struct trials *trials, struct chance *chance, const struct block *block)
{
    struct lent input = lend_block(block);
    uint64_t answer = reference_to_lines(block->bytes, block->length, NULL, 0);
    size_t needed = cedar_n(answer) == 29 ? cedar_a(answer) : between(chance, 2, CEDAR_TEXT_MOST);
    const size_t larger[] = {CEDAR_TEXT_MOST, 65536, 65535 + needed, TEXT_ROOM};
    const size_t lengths[] = {
        0, 1, needed - 1, needed, needed + 1, between(chance, 0, 2 * needed), PICK(chance, larger),
    };

    if (cedar_n(answer) != 29)
        compare_output(trials, chance, &to_lines, reference_to_lines, input, PICK(chance, lengths));
    else
        for (size_t i = 0; i < sizeof lengths / sizeof lengths[0]; i++)
            compare_output(trials, chance, &to_lines, reference_to_lines, input, lengths[i]);
}

static void compare_judge_lines(struct trials *trials, const struct text *text, uint64_t judged)
{
    struct trial trial = {&judge_lines, judged, {lend_text(text)}, {0}};

    try_call(trials, &trial);
}

/* Blocks about as long as the text was judged to need; a text that is refused gets one of any length. */
static void compare_write_block(struct trials *trials, struct chance *chance, const struct text *text, uint64_t judged)
{
    struct lent input = lend_text(text);
    bool accepted = cedar_n(judged) == 0;
    size_t needed = accepted ? cedar_a(judged) : between(chance, 2, CEDAR_BLOCK_MOST);
    const size_t shorter[] = {0, 1, needed - 2, needed - 1, between(chance, 0, needed - 1)};
    const size_t longer[] = {needed + 1, needed + 2, CEDAR_BLOCK_MOST, 65535 + needed, BLOCK_ROOM};

    if (one_in(chance, 2))
        compare_output(trials, chance, &write_block, reference_write_block, input, PICK(chance, shorter));
    else
        compare_output(trials, chance, &write_block, reference_write_block, input, PICK(chance, longer));
    if (accepted)
        compare_output(trials, chance, &write_block, reference_write_block, input, needed);
}

/* What writing into so many bytes must answer, by what the library's judging answered alone. */
static uint64_t foretold(uint64_t judged, size_t length)
{
    return cedar_n(judged) == 0 && cedar_a(judged) > length ? pack(29, cedar_a(judged), 0, 0) : judged;
}

/* Writes into so many bytes of a block that has more; those that judging did not foretell stay. */
static void check_foretold(struct trials *trials, struct chance *chance, const struct text *text, uint64_t judged,
                           uint8_t *block, size_t length)
{
    const uint8_t *before = noise_for(chance);
    uint64_t answer = foretold(judged, length);
    uint64_t written;

    memcpy(block, before, CEDAR_BLOCK_MOST);
    written = cedar_write_block(text->bytes, text->length, block, length);
    if (case_fails(trials, "judged, then written",
                   written == answer && rest_stays(answer, before, block, CEDAR_BLOCK_MOST))) {
        print_answer("judge lines", judged);
        print_answer("write block", written);
        printf("  block, %zu bytes\n", length);
    }
}

/* The pair on the library's own numbers: any length, a byte less than judged, and just that, whose block is left. */
static uint64_t check_pair(struct trials *trials, struct chance *chance, const struct text *text, uint8_t *block)
{
    uint64_t judged = cedar_judge_lines(text->bytes, text->length);
    size_t size = cedar_n(judged) == 0 ? cedar_a(judged) : between(chance, 1, CEDAR_BLOCK_MOST);
    const size_t lengths[] = {between(chance, 0, CEDAR_BLOCK_MOST), size - 1, size};
    bool sized = size > 0 && size <= CEDAR_BLOCK_MOST;

    if (cedar_n(judged) == 0 && case_fails(trials, "a block's size", sized))
        print_answer("judge lines", judged);
    for (size_t i = 0; sized && i < sizeof lengths / sizeof lengths[0]; i++)
        check_foretold(trials, chance, text, judged, block, lengths[i]);
    return judged;
}

/* The library's lines of a block that it accepts are read as this block; so they are their own standard lines. */
static void check_return(struct trials *trials, const uint8_t *block, size_t length)
{
    static uint8_t text[CEDAR_TEXT_MOST], again[CEDAR_BLOCK_MOST];
    uint64_t lined = cedar_to_lines(block, length, text, sizeof text);
    uint64_t read = cedar_write_block(text, cedar_a(lined), again, sizeof again);
    bool same = cedar_n(lined) == 0 && read == pack(0, length, 0, 0) && memcmp(again, block, length) == 0;

    if (case_fails(trials, "there and back", same)) {
        print_answer("to lines", lined);
        print_answer("write block", read);
    }
}

static void compare_prefix(struct tally *tally, uint16_t instrument)
{
    uint64_t answer = reference_prefix(instrument);
    uint64_t found = cedar_prefix(instrument);

    if (tally_fails(tally, found == answer)) {
        printf("instrument %" PRIu16 "\n", instrument);
        print_answer("reference", answer);
        print_answer("library", found);
    }
}

static void compare_block(struct trials *trials, struct chance *chance)
{
    static struct block block;

    generate_block(chance, trials->number, &block);
    compare_judge(trials, &block);
    compare_to_lines(trials, chance, &block);
    /* Large blocks take their time; one in three is of every recipe. */
    if (trials->number % 3 == 0 && cedar_n(reference_judge(block.bytes, block.length)) == 0)
        check_return(trials, block.bytes, block.length);
}

static void compare_text(struct trials *trials, struct chance *chance)
{
    static struct text text;
    static uint8_t block[CEDAR_BLOCK_MOST];
    uint64_t judged;

    generate_text(chance, trials->number, &text);
    judged = reference_judge_lines(text.bytes, text.length);
    /* Written first, so that another text is the last one judged. */
    compare_write_block(trials, chance, &text, judged);
    compare_judge_lines(trials, &text, judged);
    judged = check_pair(trials, chance, &text, block);
    if (cedar_n(judged) == 0)
        check_return(trials, block, cedar_a(judged));
}

static void compare_case(struct trials *trials, uint64_t number)
{
    struct chance chance = case_chance(trials->seed, number);

    trials->number = number;
    compare_block(trials, &chance);
    compare_text(trials, &chance);
    compare_sheet(trials, &chance);
    compare_repack(trials, &chance);
}

static void compare_all(struct trials *trials, uint64_t cases)
{
    printf("seed %" PRIu64 ", %" PRIu64 " cases\n", trials->seed, cases);
    check_paper(&trials->tally);
    check_repack(&trials->tally);
    for (uint32_t instrument = 0; instrument <= UINT16_MAX; instrument++)
        compare_prefix(&trials->tally, (uint16_t)instrument);
    for (uint64_t number = 0; number < cases; number++)
        compare_case(trials, number);
    print_reached(trials, &judge);
    print_reached(trials, &to_lines);
    print_reached(trials, &judge_lines);
    print_reached(trials, &write_block);
    print_sheet_reached(trials);
    print_repack_reached(trials);
    printf("%lu passed, %lu failed\n", trials->tally.passed, trials->tally.failed);
}

int main(int argc, char **argv)
{
    static struct trials trials = {.seed = 1};
    uint64_t cases = 20000;
    const char *only = NULL;
    int option;

    while ((option = getopt(argc, argv, "s:n:c:")) != -1)
        switch (option) {
        case 's':
            trials.seed = strtoull(optarg, NULL, 10);
            break;
        case 'n':
            cases = strtoull(optarg, NULL, 10);
            break;
        case 'c':
            only = optarg;
            break;
        default:
            return 2;
        }
    draw_noise();
    trials.shown = only != NULL;
    for (size_t i = 0; i < LENT_MOST; i++)
        trials.guards[i] = guard_open(LENT_ROOM);
    if (only != NULL)
        compare_case(&trials, strtoull(only, NULL, 10));
    else
        compare_all(&trials, cases);
    return trials.tally.failed > 0;
}

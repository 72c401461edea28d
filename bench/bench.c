/*
 * What the library's calls cost beside the reference's.
 *
 *   bench                       times, and the stack that each call takes
 *   bench names                 the names of the tasks
 *   bench WHOSE TASK CALLS      only makes so many calls, to have their instructions counted from outside
 */
#define _DEFAULT_SOURCE
#include <inttypes.h>
#include <stdio.h>
#include <stdlib.h>
#include <string.h>
#include <time.h>
#include <ucontext.h>

#include "blocks.h"
#include "cedar.h"
#include "chance.h"
#include "reference.h"
#include "slices.h"
#include "words.h"

/* The calls through pointers, so that the compiler can take none of them out of a loop. */
struct calls {
    const char *whose;
    judging *judge, *judge_lines;
    conversion *to_lines, *write_block, *repack;
    uint64_t (*prefix)(uint16_t);
    starting *start;
    amending *amend;
    undoing *undo;
};

static uint64_t judge_nothing(const uint8_t *input, size_t length)
{
    (void)input;
    return length;
}

static uint64_t convert_nothing(const uint8_t *input, size_t input_length, uint8_t *output, size_t output_length)
{
    (void)input;
    (void)output;
    return input_length + output_length;
}

static uint64_t prefix_nothing(uint16_t instrument)
{
    return instrument;
}

static uint64_t start_nothing(uint8_t *sheet, size_t length)
{
    return judge_nothing(sheet, length);
}

static uint64_t amend_nothing(uint8_t *block, size_t block_length, uint8_t *sheet, size_t sheet_length, uint16_t record,
                              uint16_t word, uint16_t old_value, uint16_t new_value)
{
    (void)record;
    (void)word;
    (void)old_value;
    (void)new_value;
    return convert_nothing(block, block_length, sheet, sheet_length);
}

static uint64_t undo_nothing(uint8_t *block, size_t block_length, uint8_t *sheet, size_t sheet_length)
{
    return convert_nothing(block, block_length, sheet, sheet_length);
}

enum { LIBRARY, REFERENCE, NOTHING, SETS };

/* The last ones cost what it costs to make a call. */
static const struct calls sets[SETS] = {
    {"library", cedar_judge, cedar_judge_lines, cedar_to_lines, cedar_write_block, cedar_repack, cedar_prefix,
     cedar_sheet_start, cedar_amend, cedar_undo},
    {"reference", reference_judge, reference_judge_lines, reference_to_lines, reference_write_block, reference_repack,
     reference_prefix, reference_sheet_start, reference_amend, reference_undo},
    {"nothing", judge_nothing, judge_nothing, convert_nothing, convert_nothing, convert_nothing, prefix_nothing,
     start_nothing, amend_nothing, undo_nothing},
};

static struct block block;

/* Every call writes over the output of the one before it: nothing clears it. */
static uint8_t text[CEDAR_TEXT_MOST];
static size_t text_length;

/* The block of these lines. */
static uint8_t written[CEDAR_BLOCK_MOST];

/* A night of the block again and again, and what is repacked of it. */
static struct slice slice;
static uint8_t repacked[SLICE_BYTES];

/* The block's sheet, and the last value of its last record. */
static uint8_t sheet[CEDAR_SHEET_BYTES];
static uint16_t last_record, last_word, last_value;

static void build_k(void)
{
    block_of_k(&block);
}

static void build_data(void)
{
    block_of_most_data(&block);
}

/* The longest text, with values of both signs and of 1 to 5 digits. */
static void build_values(void)
{
    static const unsigned tens[] = {10, 100, 1000, 10000, 32768};
    struct chance chance = {1};
    uint8_t *record = block_of_most_data(&block);

    for (size_t number = NROW + 1; number <= word_at(record, 1); number++) {
        int value = (int)(draw(&chance) % PICK(&chance, tens));

        put_word(record, number, (uint16_t)(one_in(&chance, 2) ? value : -value));
    }
    block_seal(&block);
}

static void build_catalogue(void)
{
    block_of_most_cards(&block);
}

/* As many equal records as a block of at most so many words can have. */
static void build_equal(struct counts counts, size_t most)
{
    size_t words = counts.lprol + 2 * counts.jpar + counts.mpar * (counts.nrow + 1);

    block_begin(&block);
    while (block.words + words < most)
        block_add_data(&block, counts);
    block_close(&block);
}

static void build_records(void)
{
    struct counts least = {PROLOGUE_LEAST, 0, 0, 0};

    build_equal(least, BLOCK_MOST);
}

/* Each with a value. */
static void build_value_records(void)
{
    struct counts one_value = {PROLOGUE_LEAST, 1, 0, 0};

    build_equal(one_value, BLOCK_MOST);
}

/* Refusal 3. */
static void build_bad_checksum(void)
{
    block_of_most_data(&block);
    put_word(block.bytes, block.words, word_at(block.bytes, block.words) ^ 1);
}

/* Refusal 8, at the last word before the checksum. */
static void build_bad_card(void)
{
    block_of_most_cards(&block);
    put_word(block.bytes, block.words - 1, CARD_MOST + 1);
    block_seal(&block);
}

/* The block as many times as a slice takes it. */
static void build_night(void)
{
    slice_begin(&slice);
    while (slice.length + block.length <= SLICE_BYTES)
        slice_add(&slice, &block);
}

/* Records of 304 words, 30 heights with 8 values each, in half-empty blocks. */
static void build_half_empty(void)
{
    struct counts usual = {PROLOGUE_LEAST, 20, 8, 30};

    build_equal(usual, BLOCK_MOST / 2);
    build_night();
}

/* Blocks of 36 bytes. */
static void build_small_blocks(void)
{
    struct counts least = {PROLOGUE_LEAST, 0, 0, 0};

    build_equal(least, BLOCK_LEAST);
    build_night();
}

/* A Catalogue and a Header of 48 cards each, in half-empty blocks. */
static void build_card_blocks(void)
{
    block_begin(&block);
    block_add_cards(&block, CATALOGUE, 48);
    block_add_cards(&block, HEADER, 48);
    block_close(&block);
    build_night();
}

/* Refusal 51: the last byte is cut off. */
static void build_cut(void)
{
    build_half_empty();
    slice_lend(&slice, slice.length - 1);
}

static void build_none(void)
{
}

static uint64_t judge(const struct calls *calls)
{
    return calls->judge(block.bytes, block.length);
}

static uint64_t to_lines(const struct calls *calls)
{
    return calls->to_lines(block.bytes, block.length, text, sizeof text);
}

/* Refusal 29. */
static uint64_t to_no_lines(const struct calls *calls)
{
    return calls->to_lines(block.bytes, block.length, text, 0);
}

/* Bytes of the text for refusal 22: the last line's last digit is cut off. */
static size_t bad_length(void)
{
    return text_length - 2;
}

static uint64_t judge_lines(const struct calls *calls)
{
    return calls->judge_lines(text, text_length);
}

static uint64_t judge_bad_lines(const struct calls *calls)
{
    return calls->judge_lines(text, bad_length());
}

static uint64_t write_block(const struct calls *calls)
{
    return calls->write_block(text, text_length, written, sizeof written);
}

static uint64_t write_bad_block(const struct calls *calls)
{
    return calls->write_block(text, bad_length(), written, sizeof written);
}

/* Refusal 29. */
static uint64_t write_no_block(const struct calls *calls)
{
    return calls->write_block(text, text_length, written, 0);
}

/* Both, counted as one call: what was judged is the room that is lent for writing. */
static uint64_t look_and_write(const struct calls *calls)
{
    return calls->write_block(text, text_length, written, cedar_a(judge_lines(calls)));
}

static uint64_t repack(const struct calls *calls)
{
    return calls->repack(slice.bytes, slice.length, repacked, sizeof repacked);
}

/* Refusal 50. */
static uint64_t repack_to_nothing(const struct calls *calls)
{
    return calls->repack(slice.bytes, slice.length, repacked, 0);
}

static uint64_t prefix_listed(const struct calls *calls)
{
    return calls->prefix(6320);
}

static uint64_t prefix_unlisted(const struct calls *calls)
{
    return calls->prefix(7240);
}

static uint64_t start_sheet(const struct calls *calls)
{
    return calls->start(sheet, sizeof sheet);
}

static uint64_t amend(const struct calls *calls, uint16_t old_value)
{
    return calls->amend(block.bytes, block.length, sheet, sizeof sheet, last_record, last_word, old_value, 905);
}

/* Both, counted as one call: the next one finds what this one found. n is 0 only if both succeed. */
static uint64_t amend_and_undo(const struct calls *calls)
{
    return amend(calls, last_value) + calls->undo(block.bytes, block.length, sheet, sizeof sheet);
}

/* Refusal 43. */
static uint64_t amend_other(const struct calls *calls)
{
    return amend(calls, last_value ^ 1);
}

static const struct task {
    const char *name;
    void (*build)(void);
    uint64_t (*call)(const struct calls *);
    uint32_t n; /* of the answer */
} tasks[] = {
    {"judge-data", build_data, judge, 0},
    {"judge-catalogue", build_catalogue, judge, 0},
    {"judge-records", build_records, judge, 0},
    {"judge-bad-checksum", build_bad_checksum, judge, 3},
    {"judge-bad-card", build_bad_card, judge, 8},
    {"lines-data", build_values, to_lines, 0},
    {"lines-data-zeros", build_data, to_lines, 0},
    {"lines-catalogue", build_catalogue, to_lines, 0},
    {"lines-records", build_records, to_lines, 0},
    {"lines-k", build_k, to_lines, 0},
    {"lines-no-room", build_data, to_no_lines, 29},
    {"judge-lines-data", build_values, judge_lines, 0},
    {"judge-lines-data-zeros", build_data, judge_lines, 0},
    {"judge-lines-catalogue", build_catalogue, judge_lines, 0},
    {"judge-lines-records", build_records, judge_lines, 0},
    {"judge-lines-k", build_k, judge_lines, 0},
    {"judge-lines-bad-last-line", build_values, judge_bad_lines, 22},
    {"write-data", build_values, write_block, 0},
    {"write-data-zeros", build_data, write_block, 0},
    {"write-catalogue", build_catalogue, write_block, 0},
    {"write-records", build_records, write_block, 0},
    {"write-k", build_k, write_block, 0},
    {"write-bad-last-line", build_values, write_bad_block, 22},
    {"write-no-room", build_values, write_no_block, 29},
    {"look-write-data", build_values, look_and_write, 0},
    {"look-write-catalogue", build_catalogue, look_and_write, 0},
    {"look-write-records", build_records, look_and_write, 0},
    {"look-write-k", build_k, look_and_write, 0},
    {"repack-half-empty", build_half_empty, repack, 0},
    {"repack-small-blocks", build_small_blocks, repack, 0},
    {"repack-cards", build_card_blocks, repack, 0},
    {"repack-cut", build_cut, repack, 51},
    {"repack-no-room", build_half_empty, repack_to_nothing, 50},
    {"start-sheet", build_none, start_sheet, 0},
    {"amend-undo-data", build_values, amend_and_undo, 0},
    {"amend-undo-records", build_value_records, amend_and_undo, 0},
    {"amend-undo-k", build_k, amend_and_undo, 0},
    {"amend-other-value", build_values, amend_other, 43},
    {"prefix-listed", build_none, prefix_listed, 0},
    {"prefix-unlisted", build_none, prefix_unlisted, 0},
};

enum { TASKS = sizeof tasks / sizeof tasks[0] };

/* An empty sheet for the block, and the value that is amended. */
static void prepare_sheet(void)
{
    const size_t *start = block.start + block.records;

    reference_sheet_start(sheet, sizeof sheet);
    last_record = (uint16_t)block.records;
    last_word = (uint16_t)(start[0] - start[-1]);
    last_value = word_at(block.bytes, start[0]);
}

/* The task's block, if it has one, with its sheet, and its lines if it has any. */
static void prepare(const struct task *task)
{
    task->build();
    text_length = cedar_a(reference_to_lines(block.bytes, block.length, text, sizeof text));
    if (block.records > 0)
        prepare_sheet();
}

/* What is timed is what the task says: both give the same answer, with its n. Ends the program if not. */
static void check_answer(const struct task *task)
{
    uint64_t library = task->call(&sets[LIBRARY]);
    uint64_t reference = task->call(&sets[REFERENCE]);

    if (library != reference || cedar_n(library) != task->n) {
        fprintf(stderr, "FAILED %s: library %016" PRIx64 ", reference %016" PRIx64 ", n must be %" PRIu32 "\n",
                task->name, library, reference, task->n);
        exit(1);
    }
}

static volatile uint64_t sink;

static void make_calls(const struct task *task, const struct calls *calls, unsigned long count)
{
    while (count-- > 0)
        sink = task->call(calls);
}

/* Nanoseconds for so many calls. */
static double time_calls(const struct task *task, const struct calls *calls, unsigned long count)
{
    struct timespec from, to;

    clock_gettime(CLOCK_MONOTONIC, &from);
    make_calls(task, calls, count);
    clock_gettime(CLOCK_MONOTONIC, &to);
    return 1e9 * (double)(to.tv_sec - from.tv_sec) + (double)(to.tv_nsec - from.tv_nsec);
}

/* Enough calls for the clock to be fine enough. */
static unsigned long calls_to_time(const struct task *task)
{
    unsigned long count = 1;

    while (time_calls(task, &sets[REFERENCE], count) < 5e6)
        count *= 2;
    return count;
}

static int by_size(const void *one, const void *other)
{
    double difference = *(const double *)one - *(const double *)other;

    return (difference > 0) - (difference < 0);
}

enum { ROUNDS = 21 };

static double median(double *numbers)
{
    qsort(numbers, ROUNDS, sizeof *numbers, by_size);
    return numbers[ROUNDS / 2];
}

/* In turns, so that a slow moment of the machine meets both. */
static void print_times(const struct task *task)
{
    double library[ROUNDS], reference[ROUNDS], ratio[ROUNDS];
    unsigned long count = calls_to_time(task);

    for (int round = 0; round < ROUNDS; round++) {
        library[round] = time_calls(task, &sets[LIBRARY], count) / (double)count;
        reference[round] = time_calls(task, &sets[REFERENCE], count) / (double)count;
        ratio[round] = library[round] / reference[round];
    }
    printf("%-25s %12.1f %12.1f %8.2f\n", task->name, median(library), median(reference), median(ratio));
}

/* The stack is painted in units of a push. */
enum { STACK = 1 << 17 };

static const uint64_t paint = 0xa5a5a5a5a5a5a5a5u;

static ucontext_t outside, inside;
static const struct task *measured_task;
static const struct calls *measured_calls;

static void make_measured_call(void)
{
    make_calls(measured_task, measured_calls, 1);
}

static size_t unpainted(const uint64_t *stack)
{
    size_t kept = 0;

    while (kept < STACK && stack[kept] == paint)
        kept++;
    return (STACK - kept) * sizeof *stack;
}

/* Bytes from the start of a painted stack down to the deepest that one call changed. */
static size_t depth_of(const struct task *task, const struct calls *calls)
{
    static uint64_t stack[STACK];

    for (size_t i = 0; i < STACK; i++)
        stack[i] = paint;
    measured_task = task;
    measured_calls = calls;
    getcontext(&inside);
    inside.uc_stack.ss_sp = stack;
    inside.uc_stack.ss_size = sizeof stack;
    inside.uc_link = &outside;
    makecontext(&inside, make_measured_call, 0);
    swapcontext(&outside, &inside);
    return unpainted(stack);
}

static void print_stack(const struct task *task)
{
    size_t nothing = depth_of(task, &sets[NOTHING]);

    printf("%-25s %12zu %12zu\n", task->name, depth_of(task, &sets[LIBRARY]) - nothing,
           depth_of(task, &sets[REFERENCE]) - nothing);
}

static void print_names(const struct task *task)
{
    printf("%s\n", task->name);
}

static void for_all(void (*act)(const struct task *))
{
    for (size_t i = 0; i < TASKS; i++) {
        prepare(&tasks[i]);
        act(&tasks[i]);
    }
}

static int make_named_calls(const char *whose, const char *name, unsigned long count)
{
    for (size_t i = 0; i < SETS * TASKS; i++) {
        const struct calls *calls = &sets[i % SETS];
        const struct task *task = &tasks[i / SETS];

        if (strcmp(calls->whose, whose) == 0 && strcmp(task->name, name) == 0) {
            prepare(task);
            make_calls(task, calls, count);
            return 0;
        }
    }
    return 2;
}

int main(int argc, char **argv)
{
    if (argc == 4)
        return make_named_calls(argv[1], argv[2], strtoul(argv[3], NULL, 10));
    if (argc == 2 && strcmp(argv[1], "names") == 0) {
        for_all(print_names);
        return 0;
    }
    for_all(check_answer);
    printf("%-25s %12s %12s %8s\n", "time, ns a call", "library", "reference", "ratio");
    for_all(print_times);
    printf("\n%-25s %12s %12s\n", "stack, bytes", "library", "reference");
    for_all(print_stack);
    return 0;
}

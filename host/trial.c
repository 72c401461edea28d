#include "trial.h"

#include <inttypes.h>
#include <stdio.h>

#include "cedar.h"

/* What came of a call at one end of the guards. */
struct outcome {
    const struct trial *trial;
    bool returned;
    uint64_t answer;
    size_t wrong[LENT_MOST]; /* for each buffer, as guard_wrong tells it */
    uint8_t left[LENT_MOST]; /* the byte there */
};

static void make_call(void *context)
{
    struct outcome *outcome = context;

    outcome->answer = outcome->trial->call->make(outcome->trial);
}

static struct outcome outcome_at(enum guard_end end, const struct guard *guards, struct trial *trial)
{
    struct outcome outcome = {trial, false, 0, {0}, {0}};
    struct lent *lent = trial->lent;

    for (size_t i = 0; i < trial->call->buffers; i++)
        lent[i].copy = guard_place(guards[i], end, lent[i].before, lent[i].length);
    outcome.returned = guard_run(make_call, &outcome);
    for (size_t i = 0; i < trial->call->buffers; i++) {
        outcome.wrong[i] = guard_wrong(guards[i], end, lent[i].after, lent[i].length);
        if (outcome.wrong[i] > 0 && outcome.wrong[i] <= lent[i].length)
            outcome.left[i] = lent[i].copy[outcome.wrong[i] - 1];
    }
    return outcome;
}

static bool is_right(const struct outcome *outcome)
{
    bool right = outcome->returned && outcome->answer == outcome->trial->answer;

    for (size_t i = 0; i < LENT_MOST; i++)
        right = right && outcome->wrong[i] == 0;
    return right;
}

void print_answer(const char *whose, uint64_t answer)
{
    printf("  %s %" PRIu32 " %" PRIu32 " %" PRIu32 " %" PRIu32 "\n", whose, cedar_n(answer), cedar_a(answer),
           cedar_b(answer), cedar_c(answer));
}

static void print_outcome(const struct outcome *outcome)
{
    if (outcome->returned)
        print_answer("library", outcome->answer);
    else
        printf("  library trapped outside of its buffers\n");
    for (size_t i = 0; i < LENT_MOST; i++) {
        const struct lent *lent = &outcome->trial->lent[i];
        size_t wrong = outcome->wrong[i];

        if (wrong > lent->length)
            printf("  library changed bytes beside the %s\n", lent->name);
        else if (wrong > 0)
            printf("  library left %02x for %02x in byte %zu of the %s\n", outcome->left[i], lent->after[wrong - 1],
                   wrong, lent->name);
    }
}

static void print_bytes(const uint8_t *bytes, size_t length)
{
    enum { SHOWN = 96, A_LINE = 32 };

    for (size_t i = 0; i < length && i < SHOWN; i++)
        printf("%s%02x", i % A_LINE == 0 ? "\n    " : " ", bytes[i]);
}

/* A line of the text each, and its bad bytes as numbers. */
static void print_characters(const uint8_t *bytes, size_t length)
{
    enum { SHOWN = 4000 };

    printf("\n    ");
    for (size_t i = 0; i < length && i < SHOWN; i++)
        if (bytes[i] == '\n')
            printf("\n    ");
        else
            printf(bytes[i] >= ' ' && bytes[i] <= '~' ? "%c" : "<%02x>", bytes[i]);
}

static void print_lent(const struct lent *lent)
{
    printf("  %s, %zu bytes", lent->name, lent->length);
    if (lent->look == FIRST_BYTES)
        print_bytes(lent->before, lent->length);
    else if (lent->look == CHARACTERS)
        print_characters(lent->before, lent->length);
    printf("\n");
}

static void print_numbers(const struct trial *trial)
{
    printf("  numbers");
    for (size_t i = 0; i < trial->call->numbers; i++)
        printf(" %" PRIu16, trial->numbers[i]);
    printf("\n");
}

static void print_case(const struct trials *trials, const char *what)
{
    printf("case -s %" PRIu64 " -c %" PRIu64 ", %s\n", trials->seed, trials->number, what);
}

bool case_fails(struct trials *trials, const char *what, bool holds)
{
    bool fails = tally_fails(&trials->tally, holds);

    if (fails)
        print_case(trials, what);
    return fails;
}

void try_call(struct trials *trials, struct trial *trial)
{
    struct outcome first = outcome_at(AT_START, trials->guards, trial);
    struct outcome second = outcome_at(AT_END, trials->guards, trial);

    trial->call->reached[cedar_n(trial->answer)]++;
    if (!tally_fails(&trials->tally, is_right(&first) && is_right(&second)) && !trials->shown)
        return;
    print_case(trials, trial->call->name);
    for (size_t i = 0; i < trial->call->buffers; i++)
        print_lent(&trial->lent[i]);
    if (trial->call->numbers > 0)
        print_numbers(trial);
    print_answer("reference", trial->answer);
    print_outcome(&first);
    print_outcome(&second);
}

void print_reached(struct trials *trials, const struct call *call)
{
    printf("%-11s %4s %9s\n", call->name, "n", "reached");
    for (int n = 0; n < ANSWERS; n++) {
        bool given = (call->gives >> n & 1) != 0, reached = call->reached[n] > 0;

        if (!given && !reached)
            continue;
        printf("%-11s %4d %9lu\n", "", n, call->reached[n]);
        if (tally_fails(&trials->tally, given && reached))
            printf("FAILED answer %d of %s was %s\n", n, call->name, given ? "not reached" : "reached");
    }
}

/* Calls of the library, tried in guarded memory. */
#ifndef TRIAL_H
#define TRIAL_H

#include <stdbool.h>
#include <stddef.h>
#include <stdint.h>

#include "guard.h"
#include "tally.h"

/* More than the largest n of an answer. */
enum { ANSWERS = 53 };

/* An answer as a bit, and those that a block alone decides, 0 to 9. */
#define ANSWER(n) (UINT64_C(1) << (n))
#define BLOCK_ANSWERS UINT64_C(0x3ff)

/* The most buffers that a call is lent, and the most numbers that it is given beside them. */
enum { LENT_MOST = 2, NUMBERS_MOST = 4 };

/* How a buffer is printed. */
enum look { LENGTH_ONLY, FIRST_BYTES, CHARACTERS };

struct lent {
    const char *name;
    size_t length;
    const uint8_t *before, *after; /* what the call finds, and what it must leave */
    uint8_t *copy;                 /* what the call is lent, while it is tried */
    enum look look;
};

struct trial;

struct call {
    const char *name;
    uint64_t (*make)(const struct trial *);
    size_t buffers, numbers;
    uint64_t gives;                 /* has bit n for each answer n that the call can give */
    unsigned long reached[ANSWERS]; /* trials in which each was due */
};

struct trial {
    struct call *call;
    uint64_t answer; /* the one that is due */
    struct lent lent[LENT_MOST];
    uint16_t numbers[NUMBERS_MOST];
};

/* What trials share. */
struct trials {
    struct guard guards[LENT_MOST];
    struct tally tally;
    uint64_t seed, number; /* of the case that is tried */
    bool shown;            /* trials that pass are printed as well */
};

/* Makes the call at both ends of the guards, so that what it reads or writes beside its buffers traps. */
void try_call(struct trials *trials, struct trial *trial);

/* Counts one check of the case that is tried; true if it failed and the case was printed, with what was checked. */
bool case_fails(struct trials *trials, const char *what, bool holds);

void print_answer(const char *whose, uint64_t answer);

/* How often each answer was due; one that never was is a failure too, and one that the call cannot give. */
void print_reached(struct trials *trials, const struct call *call);

#endif

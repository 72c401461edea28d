/* What passed and what failed. */
#ifndef TALLY_H
#define TALLY_H

#include <stdbool.h>

struct tally {
    unsigned long passed, failed;
};

/* Counts one check; true if it failed and its failure is still to be printed: the first ones are. */
static inline bool tally_fails(struct tally *tally, bool holds)
{
    enum { PRINTED = 10 };

    if (holds)
        tally->passed++;
    else
        tally->failed++;
    return !holds && tally->failed <= PRINTED;
}

#endif

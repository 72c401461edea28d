/* The repacker, compared with the reference's and with what document 02 says of every packing. */
#ifndef COMPARE_REPACK_H
#define COMPARE_REPACK_H

#include "chance.h"
#include "trial.h"

/* Slices of K, whose answers are counted by hand. */
void check_repack(struct tally *tally);

/* The slice of a case, made with its chance. */
void compare_repack(struct trials *trials, struct chance *chance);

void print_repack_reached(struct trials *trials);

#endif

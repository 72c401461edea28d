/* Slices of blocks by chance, whole and damaged. */
#ifndef GENERATE_SLICE_H
#define GENERATE_SLICE_H

#include <stdint.h>

#include "chance.h"
#include "slices.h"

/* The slice of a case, made with its chance. */
void generate_slice(struct chance *chance, uint64_t number, struct slice *slice);

#endif

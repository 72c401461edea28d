/* Calls that write one buffer from another, compared with the reference's. */
#ifndef CONVERSIONS_H
#define CONVERSIONS_H

#include "blocks.h"
#include "chance.h"
#include "reference.h"
#include "trial.h"

/* Bytes of the largest buffer that is lent; texts, sheets and slices have less room. */
enum { LENT_ROOM = BLOCK_ROOM };

/* Draws what the outputs hold before they are written; once, before all trials. */
void draw_noise(void);

/* What an output of up to LENT_ROOM bytes holds before. */
const uint8_t *noise_for(struct chance *chance);

/* Whether the answer accounts for every byte of the output that was written. */
bool rest_stays(uint64_t answer, const uint8_t *before, const uint8_t *after, size_t length);

/* Converts the input to an output of so many bytes. */
void compare_output(struct trials *trials, struct chance *chance, struct call *call, conversion *reference,
                    struct lent input, size_t length);

#endif

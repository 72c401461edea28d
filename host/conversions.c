#include "conversions.h"

#include <string.h>

#include "cedar.h"

/* Bytes by chance, drawn once; each output finds those from another start on. */
enum { STARTS = 4096 };

static uint8_t noise[STARTS + LENT_ROOM];

void draw_noise(void)
{
    struct chance chance = {0};

    for (size_t i = 0; i < sizeof noise; i++)
        noise[i] = (uint8_t)draw(&chance);
}

const uint8_t *noise_for(struct chance *chance)
{
    return noise + between(chance, 0, STARTS);
}

bool rest_stays(uint64_t answer, const uint8_t *before, const uint8_t *after, size_t length)
{
    size_t written = cedar_n(answer) == 0 ? cedar_a(answer) : 0;

    return written <= length && memcmp(before + written, after + written, length - written) == 0;
}

void compare_output(struct trials *trials, struct chance *chance, struct call *call, conversion *reference,
                    struct lent input, size_t length)
{
    static uint8_t after[LENT_ROOM];
    const uint8_t *before = noise_for(chance);
    struct lent output = {"output", length, before, memcpy(after, before, length), NULL, LENGTH_ONLY};
    struct trial trial = {call, reference(input.before, input.length, after, length), {input, output}, {0}};

    try_call(trials, &trial);
    case_fails(trials, "bytes past those written", rest_stays(trial.answer, before, after, length));
}

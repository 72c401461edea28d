/* Chance that repeats: the same state always draws the same numbers. */
#ifndef CHANCE_H
#define CHANCE_H

#include <stdbool.h>
#include <stddef.h>
#include <stdint.h>

struct chance {
    uint64_t state;
};

/* SplitMix64. */
static inline uint64_t draw(struct chance *chance)
{
    uint64_t mixed = chance->state += 0x9e3779b97f4a7c15u;

    mixed = (mixed ^ mixed >> 30) * 0xbf58476d1ce4e5b9u;
    mixed = (mixed ^ mixed >> 27) * 0x94d049bb133111ebu;
    return mixed ^ mixed >> 31;
}

/* From low to high, both included. */
static inline size_t between(struct chance *chance, size_t low, size_t high)
{
    return low + (size_t)(draw(chance) % (high - low + 1));
}

static inline bool one_in(struct chance *chance, size_t times)
{
    return between(chance, 1, times) == 1;
}

/* Any element of an array. */
#define PICK(chance, array) ((array)[between((chance), 0, sizeof(array) / sizeof((array)[0]) - 1)])

#endif

/* Words of 16 bits in a buffer of bytes, high byte first; numbered from 1, as in document 01. */
#ifndef WORDS_H
#define WORDS_H

#include <stddef.h>
#include <stdint.h>

enum { WORD_BYTES = 2 };

static inline size_t bytes_of(size_t words)
{
    return WORD_BYTES * words;
}

/* Whole words only: an odd byte is in none. */
static inline size_t words_of(size_t bytes)
{
    return bytes / WORD_BYTES;
}

static inline uint16_t word_at(const uint8_t *bytes, size_t number)
{
    const uint8_t *word = bytes + bytes_of(number - 1);

    return (uint16_t)(word[0] << 8 | word[1]);
}

static inline void put_word(uint8_t *bytes, size_t number, uint16_t value)
{
    uint8_t *word = bytes + bytes_of(number - 1);

    word[0] = (uint8_t)(value >> 8);
    word[1] = (uint8_t)value;
}

/* The exclusive or of the first `count` words. */
static inline uint16_t exclusive_or(const uint8_t *bytes, size_t count)
{
    uint16_t fold = 0;

    for (size_t number = 1; number <= count; number++)
        fold ^= word_at(bytes, number);
    return fold;
}

#endif

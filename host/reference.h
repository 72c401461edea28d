/* The calls of cedar.h once more, in plain C from documents 01 and 02, to compare the library with. */
#ifndef REFERENCE_H
#define REFERENCE_H

#include <stddef.h>
#include <stdint.h>

static inline uint64_t pack(uint64_t n, uint64_t a, uint64_t b, uint64_t c)
{
    return n << 56 | a << 32 | b << 16 | c;
}

/* A call that judges a buffer, and one that writes a buffer from another. */
typedef uint64_t judging(const uint8_t *input, size_t length);
typedef uint64_t conversion(const uint8_t *input, size_t input_length, uint8_t *output, size_t output_length);

/* The calls on an amendment sheet. */
typedef uint64_t starting(uint8_t *sheet, size_t length);
typedef uint64_t amending(uint8_t *block, size_t block_length, uint8_t *sheet, size_t sheet_length, uint16_t record,
                          uint16_t word, uint16_t old_value, uint16_t new_value);
typedef uint64_t undoing(uint8_t *block, size_t block_length, uint8_t *sheet, size_t sheet_length);

uint64_t reference_judge(const uint8_t *block, size_t length);
uint64_t reference_to_lines(const uint8_t *block, size_t block_length, uint8_t *text, size_t text_length);
uint64_t reference_judge_lines(const uint8_t *text, size_t text_length);
uint64_t reference_write_block(const uint8_t *text, size_t text_length, uint8_t *block, size_t block_length);
uint64_t reference_prefix(uint16_t instrument);
starting reference_sheet_start;
amending reference_amend;
undoing reference_undo;
conversion reference_repack;

#endif

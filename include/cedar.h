/*
 * cedar.h: the C calls of Nalungkep, a proved converter for CEDAR radar data.
 *
 * The library judges binary blocks of the CEDAR database format, writes their lines, judges lines, writes their block,
 * repacks blocks, amends a block's values and undoes that, and finds instruments' prefixes.
 * The calls are proved, for every input, against definitions; this page says in words what those say.
 * Link x86-64 programs with libcedar.a; of the C library it needs memset alone.
 *
 * Every call
 *   keeps no state and needs no set-up;
 *   is safe on any bytes;
 *   reads no byte outside of the buffers lent to it, and writes none outside of those that are not `const`;
 *   leaves every buffer unchanged when it refuses.
 *
 * The caller answers for the buffers.
 *   A buffer has as many bytes as its length says, and all may be written if it is not `const`.
 *   For length 0 any pointer but NULL will do.
 *   Buffers lent to one call do not overlap, and nobody else changes them until it returns.
 *
 * A block
 *   is 18 to 8,000 words of 16 bits, each with its high byte first, in two's complement.
 *   Its word 1 is the count of all its words.
 *   Its last word, the checksum, is the exclusive or of all the other words.
 *   Between those two stand one or more records, end to end, numbered from 1.
 *
 * A record has its words numbered from 1.
 *   Word 1 is LTOT, the count of the record's words.
 *   Word 2 is the kind: 2001 Catalogue, 3002 Header, 1002 Data.
 *   Word 3 is the instrument, word 4 a code, words 5 to 12 are times: any values.
 *   Catalogue: words 13 to 40 are zero, and from word 41 on stand cards.
 *   Header: as Catalogue, but words 13 to 15 may have any values.
 *   A card is 80 bytes, each from 32 to 126.
 *   Data: words 13 to 16 are the counts LPROL (at least 16), JPAR, MPAR and NROW (at least 0).
 *   Data: after the prologue, words 1 to LPROL, stand JPAR codes, JPAR values, MPAR codes and NROW rows of MPAR values.
 *   Data: so LTOT is LPROL + 2 JPAR + MPAR (NROW + 1); words 17 on may have any values.
 *
 * Lines
 *   are the same records in characters, in the same order. Each line ends with LF.
 *   A number is a field of six columns: blanks, a minus if it is negative, its digits without leading zeros.
 *   Field 1 of a record is the count of its lines; field 2 is the kind: 2101 Catalogue, 3101 Header, 1101 Data.
 *   The further fields are the record's words from word 3 on.
 *   Catalogue, Header: a line of 20 fields, then each card as a line of all its 80 bytes.
 *   Data: the prologue, the JPAR codes, the JPAR values, the MPAR codes and each row begin on a new line.
 *   Data: each of these has 20 fields a line, what is left of them on its last line, and no line if it has no fields.
 *
 * Lines that are read may be spelled more widely.
 *   A line has at most 120 bytes, each from 32 to 126. It ends with LF, CR LF, or, after a byte, the end of the text.
 *   A CR elsewhere is a bad byte.
 *   Lines are numbered from 1 through the whole text, and columns from 1. Columns that a line lacks are blank.
 *   A field may have a plus or leading zeros: it is blanks, at most one sign, and digits to its last column; -0 is 0.
 *   Catalogue: fields 13 to 20 are 0 or blank. Header: fields 16 to 20 are 0 or blank.
 *   Columns after a line's last field, or after a card's column 80, are blank.
 *   A blank line has no byte or only blanks. It may stand before, between and after records; in a record it is a card,
 *   or a line of Data whose fields are bad.
 *
 * A sheet
 *   is 520 bytes that keep a block's amendments, so that they can be undone; its numbers are 16 bits, high byte first.
 *   It has the mark "AMD", the version 1, the count of the amendments that stand, 0 to 64, and one zero byte.
 *   Then 64 entries of four numbers each: record, word in the record, old value, new value; oldest first.
 *   Entries past the count are zero.
 *   It belongs to one block and is kept with it: the calls cannot tell whether a sheet is that block's.
 *
 * An answer
 *   is four numbers n, a, b, c in one: 2^56 n + 2^32 a + 2^16 b + c.
 *   n is 0 for success; any other n is a refusal.
 *   A number that is not named for an answer is 0.
 */
#ifndef CEDAR_H
#define CEDAR_H

#include <stddef.h>
#include <stdint.h>

#ifdef __cplusplus
extern "C" {
#endif

/* The four numbers of an answer. */
static inline uint32_t cedar_n(uint64_t answer) { return (uint32_t)(answer >> 56); }
static inline uint32_t cedar_a(uint64_t answer) { return (uint32_t)(answer >> 32) & 0xffffff; }
static inline uint32_t cedar_b(uint64_t answer) { return (uint32_t)(answer >> 16) & 0xffff; }
static inline uint32_t cedar_c(uint64_t answer) { return (uint32_t)answer & 0xffff; }

/*
 * Judges the `length` bytes at `block`, which must be exactly one block.
 *
 *   n  given when                                          a        b               c
 *   0  the block is accepted                               records
 *   1  the length of the block is odd, under 36 or over
 *      16,000 bytes
 *   2  word 1 is not the count of the block's words
 *   3  the checksum is wrong                                                        how many bits
 *   4  under 16 words are left for a record                record   1
 *   5  the kind is unknown                                 record   2
 *   6  LTOT is under 40 or no multiple of 40               record   1
 *      (Data: under 16), or runs into the checksum
 *   7  a word that must be zero is not                     record   its word
 *   8  a card has a byte that is not 32 to 126             record   the byte's word
 *   9  Data: a count is under its least value (LPROL 16;   record   13, 14, 15, 16
 *      JPAR, MPAR, NROW 0), or
 *      LTOT is not the sum that the counts give            record   1
 *
 * Tried in this order: 1, 2, 3, then 4 to 9 for each record in turn; the first that holds is the answer.
 * Where several places are wrong in the same way, b is the first of them.
 */
uint64_t cedar_judge(const uint8_t *block, size_t length);

/* Bytes that suffice for the lines of any block. */
enum { CEDAR_TEXT_MOST = 55971 };

/*
 * Writes the lines of the block in the `block_length` bytes at `block`, which must be exactly one block, to `text`.
 * The text has room for `text_length` bytes.
 *
 *   n       given when                                     a               b               c
 *   0       the lines are written                          bytes written
 *   1 to 9  cedar_judge refuses the block                  as there        as there        as there
 *   29      the output is shorter than needed              bytes needed
 *
 * Tried in this order: 1 to 9, then 29.
 * So a call with text_length 0, and any text but NULL, asks how many bytes an accepted block needs.
 * Bytes of the text past those written stay as they are: no NUL is added.
 */
uint64_t cedar_to_lines(const uint8_t *block, size_t block_length, uint8_t *text, size_t text_length);

/* Bytes of the longest text that is read. */
enum { CEDAR_READ_MOST = 65536 };

/* Bytes that suffice for the block of any text. */
enum { CEDAR_BLOCK_MOST = 16000 };

/*
 * Judges the lines in the `text_length` bytes at `text`, and tells how many bytes their block needs; writes nothing.
 *
 *   n   given when                                         a               b               c
 *   0   the lines are accepted                             bytes needed
 *   20  a line has a column past 120, or a byte            line            that column
 *       that is not 32 to 126
 *   21  the text has no record
 *   22  a field is no number from -32,768 to 32,767        line            its first column
 *   23  the kind is unknown                                line            7
 *   24  field 1 is not the record's line count: 1 to 199   line            1
 *       for Catalogue and Header, for Data the lines that
 *       its four counts need
 *   25  the text ends inside a record, where this line     last line + 1   1
 *       must stand
 *   26  a column that must be blank is not, or a field     line            that column
 *       that must be 0 or blank is another number          line            its first column
 *   27  Data: a count is under its least value (LPROL 16;  line            its first column
 *       JPAR, MPAR, NROW 0)
 *   28  with this record the text has over 7,998 record    line            1
 *       words
 *   30  the text is over 65,536 bytes
 *
 * Tried in this order: 30, then line by line, and at the end 21; the first that holds is the answer.
 * Blank lines outside of records: 20.
 * A record's first line: 20, fields 1 to 12 by 22, 23, then by kind
 *   Catalogue: fields 13 to 20, each by 22 and 26; then 24, 28.
 *   Header: fields 13 to 15 by 22; fields 16 to 20, each by 22 and 26; then 24, 28.
 *   Data: fields 13 to 16 by 22; 27; fields 17 on, as far as LPROL goes, by 22; columns after them by 26; then 28, 24.
 * Its later lines: 25, 20, fields by 22, columns after them or after a card by 26.
 * For 28 a record has the words that field 1, or for Data the counts, ask for, even if its lines are not there.
 * Where several places of a line are wrong in the same way, b is the first of them.
 */
uint64_t cedar_judge_lines(const uint8_t *text, size_t text_length);

/*
 * Writes the block of the lines in the `text_length` bytes at `text` to `block`.
 * The block has room for `block_length` bytes.
 *
 *   n             given when                               a               b               c
 *   0             the block is written                     bytes written
 *   20 to 28, 30  cedar_judge_lines refuses the text       as there        as there
 *   29            the output is shorter than needed        bytes needed
 *
 * Tried in this order: 20 to 28 and 30 as there, then 29.
 * To look before you write: judge the lines; where n is 0, find a buffer of cedar_a(answer) bytes, and write into it.
 * For the same text both calls give the same refusal, or the same a.
 * This call judges again, so a text that was changed between the two, or that was never judged, is safe.
 * Where there are CEDAR_BLOCK_MOST bytes anyway this call alone will do: it reads the text twice, the pair three times.
 * Bytes of the block past those written stay as they are.
 */
uint64_t cedar_write_block(const uint8_t *text, size_t text_length, uint8_t *block, size_t block_length);

/* Bytes of the blocks that are repacked together, at most. They suffice for the blocks that come out, too. */
enum { CEDAR_REPACK_MOST = 64000 };

/*
 * Writes the records of the blocks in the `blocks_length` bytes at `blocks`, which stand one after the other, to `out`,
 * in their order, in as few blocks as possible: a record goes into the current block if it fits, else into a new one.
 * The output has room for `out_length` bytes.
 *
 *   n       given when                                     a               b               c
 *   0       the blocks are written                         bytes written
 *   1 to 9  cedar_judge refuses a block                    as there        as there        as there
 *   50      the output is shorter than needed              bytes needed
 *   51      the block runs past the end, or only one byte  block, from 1
 *           is left
 *   52      the blocks are over 64,000 bytes together
 *
 * Tried in this order: 52, then block by block, and at the end 50; the first that holds is the answer.
 * A block: 51 where only one byte is left; 1 where its word 1, which says how long it is, is under 18 or over 8,000;
 *   51 where it runs past the end; then 3 to 9. So 2 is never given.
 * 1 to 9 do not tell which block it is: it is the first whose word 1 is under 18 or over 8,000, or that cedar_judge
 *   refuses when it is lent as many words as its word 1 says.
 * With blocks_length 0 the call succeeds, and writes nothing.
 * The output needs at most blocks_length bytes. With out_length 0, and any out but NULL, 50 tells how many.
 * Each block written is as long as its word 1 says, and the next one stands right behind it.
 * No sheet is read or written. Values are taken as they stand, and for each block written a sheet is started anew.
 *   The sheets of the blocks read belong to none of them, though cedar_undo may accept one: undo first what is to be
 *   undone.
 * Bytes of the output past those written stay as they are.
 */
uint64_t cedar_repack(const uint8_t *blocks, size_t blocks_length, uint8_t *out, size_t out_length);

/* Bytes of a sheet, and the amendments that it has room for. */
enum { CEDAR_SHEET_BYTES = 520, CEDAR_AMENDMENTS_MOST = 64 };

/*
 * Writes an empty sheet to the `length` bytes at `sheet`, whatever they hold.
 *
 *   n   given when                                         a               b               c
 *   0   the sheet is written                               standing: 0
 *   40  the sheet is not 520 bytes
 */
uint64_t cedar_sheet_start(uint8_t *sheet, size_t length);

/*
 * Puts `new_value` in place of `old_value` at word `word` of record `record` of the block in the `block_length` bytes
 * at `block`, which must be exactly one block, and enters that in the sheet in the `sheet_length` bytes at `sheet`.
 * Values are passed as words, 0 to 65,535: -5 as 65,531. The new one may be the old one.
 * Only 1-D and 2-D values of Data can be amended: in a record
 *   words LPROL + JPAR + 1 to LPROL + 2 JPAR, and words LPROL + 2 JPAR + MPAR + 1 to LTOT.
 *
 *   n       given when                                     a               b               c
 *   0       the value is amended                           standing
 *   1 to 9  cedar_judge refuses the block                  as there        as there        as there
 *   40      the sheet is not 520 bytes, or its mark,
 *           version, count or zero byte is wrong, or an
 *           entry past the count is not zero
 *   41      the block has no such record
 *   42      that word is no value of a Data record
 *   43      the old value is not what stands there         the word found
 *   44      64 amendments stand
 *
 * Tried in this order: 1 to 9, 40, 44, 41, 42, 43; the first that holds is the answer.
 * Standing is the count of amendments after the call. The entries up to the count are not tested.
 * The block's checksum is kept right; its other words and the sheet's other entries stay as they are.
 */
uint64_t cedar_amend(uint8_t *block, size_t block_length, uint8_t *sheet, size_t sheet_length, uint16_t record,
                     uint16_t word, uint16_t old_value, uint16_t new_value);

/*
 * Puts the old value of the sheet's last entry back at its place in the block, clears the entry to zero, and lowers the
 * count by one. The buffers are those of cedar_amend. Where only these two calls changed them, as many undos as
 * amendments stand give back the block and the empty sheet that were there at first.
 *
 *   n       given when                                     a               b               c
 *   0       the amendment is undone                        standing
 *   1 to 9  cedar_judge refuses the block                  as there        as there        as there
 *   40      as for cedar_amend
 *   45      no amendment stands
 *   46      the last entry names no value of a Data
 *           record, or its new value does not stand there
 *
 * Tried in this order: 1 to 9, 40, 45, 46; the first that holds is the answer.
 * Standing is the count of amendments after the call. The entries before the last are not tested.
 * The block's checksum is kept right; its other words and the sheet's other entries stay as they are.
 */
uint64_t cedar_undo(uint8_t *block, size_t block_length, uint8_t *sheet, size_t sheet_length);

/*
 * Finds the data volume prefix of an instrument, given as word 3 of its records, 0 to 65,535.
 * Always succeeds: n is 0, and a, b, c are the byte values of the prefix's three letters.
 * An instrument without a prefix has "---".
 */
uint64_t cedar_prefix(uint16_t instrument);

#ifdef __cplusplus
}
#endif

#endif

#include "paper.h"

#include <stdio.h>
#include <string.h>

#include "blocks.h"
#include "cedar.h"
#include "reference.h"
#include "sheets.h"
#include "words.h"

/* K's NROW and its record's word 22, as words of the block. */
enum { K_NROW = 1 + NROW, K_VALUE = 1 + 22 };

/* Bytes of K, of its text, and of those before its JPAR, and before columns 7 to 12 of line 5, where word 22 stands. */
enum { K_BYTES = 52, K_TEXT = 150, BEFORE_JPAR = FIELD_COLUMNS * (JPAR - 1), BEFORE_VALUE = 130 };

static void check(struct tally *tally, const char *what, bool holds)
{
    if (tally_fails(tally, holds))
        printf("FAILED %s\n", what);
}

static void check_answer(struct tally *tally, const char *what, const struct block *block, uint64_t answer)
{
    check(tally, what,
          cedar_judge(block->bytes, block->length) == answer && reference_judge(block->bytes, block->length) == answer);
}

struct bytes {
    const uint8_t *at;
    size_t length;
};

/* Whether the call writes this output where there is just room for it, and only asks for that room where a byte lacks. */
static bool writes(conversion *call, struct bytes input, struct bytes output)
{
    static const uint8_t before[CEDAR_TEXT_MOST];
    static uint8_t written[CEDAR_TEXT_MOST];

    memset(written, 0, sizeof written);
    return call(input.at, input.length, written, output.length - 1) == pack(29, output.length, 0, 0) &&
           memcmp(written, before, sizeof written) == 0 &&
           call(input.at, input.length, written, output.length) == pack(0, output.length, 0, 0) &&
           memcmp(written, output.at, output.length) == 0;
}

/* The pair that makes a block of a text, of the library or of the reference. */
struct text_calls {
    judging *judge;
    conversion *write;
};

static const struct text_calls library = {cedar_judge_lines, cedar_write_block};
static const struct text_calls reference = {reference_judge_lines, reference_write_block};

/* Whether judging tells the size of this block, and writing asks for that size and takes it. */
static bool accepts(struct text_calls calls, struct bytes text, struct bytes block)
{
    return calls.judge(text.at, text.length) == pack(0, block.length, 0, 0) && writes(calls.write, text, block);
}

static void check_accepted(struct tally *tally, const char *what, struct bytes text, struct bytes block)
{
    check(tally, what, accepts(library, text, block) && accepts(reference, text, block));
}

/* Whether judging and writing give this refusal, and the block stays as it was. */
static bool refuses(struct text_calls calls, struct bytes text, uint64_t answer)
{
    static uint8_t before[CEDAR_BLOCK_MOST], block[CEDAR_BLOCK_MOST];

    memset(before, '*', sizeof before);
    memset(block, '*', sizeof block);
    return calls.judge(text.at, text.length) == answer &&
           calls.write(text.at, text.length, block, sizeof block) == answer && memcmp(block, before, sizeof block) == 0;
}

static void check_refused(struct tally *tally, const char *what, const uint8_t *text, size_t length, uint64_t answer)
{
    struct bytes lines = {text, length};

    check(tally, what, refuses(library, lines, answer) && refuses(reference, lines, answer));
}

/* The block's text is this one, and is read as the block. */
static void check_text(struct tally *tally, const char *what, const struct block *block, const uint8_t *text,
                       size_t length)
{
    struct bytes lines = {text, length}, words = {block->bytes, block->length};

    check(tally, what, writes(cedar_to_lines, words, lines) && writes(reference_to_lines, words, lines));
    check_accepted(tally, what, lines, words);
}

/* A text of which only the length is given. */
static void check_length(struct tally *tally, const char *what, const struct block *block, size_t length)
{
    static uint8_t text[CEDAR_TEXT_MOST];

    reference_to_lines(block->bytes, block->length, text, sizeof text);
    check_text(tally, what, block, text, length);
}

/* The number of bytes read: at most `room`, and 0 if there is no such file. */
static size_t read_file(const char *name, uint8_t *bytes, size_t room)
{
    FILE *file = fopen(name, "rb");
    size_t length = 0;

    if (file != NULL) {
        length = fread(bytes, 1, room, file);
        fclose(file);
    }
    return length;
}

static void check_file(struct tally *tally, const char *name, const struct block *block)
{
    static uint8_t bytes[BLOCK_ROOM];
    size_t length = read_file(name, bytes, sizeof bytes);

    check(tally, name, length == block->length && memcmp(bytes, block->bytes, length) == 0);
}

static size_t lines_in(const uint8_t *text, size_t length)
{
    size_t lines = 0;

    for (size_t i = 0; i < length; i++)
        lines += text[i] == '\n';
    return lines;
}

/* NAME.block must be accepted, with one record, and NAME.lines be its text, of so many lines. */
static void check_shipped(struct tally *tally, const char *name, size_t lines)
{
    static struct block block;
    static uint8_t text[CEDAR_TEXT_MOST];
    char block_name[64], lines_name[64];
    size_t length;

    snprintf(block_name, sizeof block_name, "example/%s.block", name);
    snprintf(lines_name, sizeof lines_name, "example/%s.lines", name);
    block.length = read_file(block_name, block.bytes, sizeof block.bytes);
    length = read_file(lines_name, text, sizeof text);
    check_answer(tally, block_name, &block, pack(0, 1, 0, 0));
    if (lines_in(text, length) == lines)
        check_text(tally, lines_name, &block, text, length);
    else
        check(tally, lines_name, false);
}

/*
 * K, and the records of Tables 2, 5 and 7 in document 000. What their print breaks or leaves open was chosen so:
 *   Numbers end in the last column of their field; a description begins one column after its field does.
 *   Each keyword is a card, also without text. A dot, for cards left out, is a card of blanks.
 *   The spelling is the print's. What it cuts off was guessed.
 *   Table 2: "Data above", "Inco-", "Fabry-Per-", "Satellite pa-", "Substorm", "Sudden co-", "Experi-" and "S-hort".
 *   Table 5: "-eters have the value -32767", "Assumed parameters hav-", "-och 1983", "-n is taken from a model",
 *   "The neutral atmosphere mod-", "Collision freq-", "MSIS 1983" on the card CCOLL, and "(Names of pers-".
 *   DRWDNO 5 to 11 stand beside the times, as the printed 12 does.
 *   The card KRECH says 3002 in the lines too, since cards are the same in both forms.
 *   Data: Table 7 prints no values, so this is a record that the Header describes; values and ending time were made up.
 */
static void check_examples(struct tally *tally)
{
    check_shipped(tally, "k", 6);
    check_shipped(tally, "catalogue", 40);
    check_shipped(tally, "header", 47);
    check_shipped(tally, "data", 7);
}

static void check_k(struct tally *tally)
{
    static struct block block;

    block_of_k(&block);
    check_answer(tally, "example 1", &block, pack(0, 1, 0, 0));
    check_length(tally, "example 1, text", &block, K_TEXT);
    check_file(tally, "example/k.block", &block);
    put_word(block.bytes, block.words, (uint16_t)-32515);
    check_answer(tally, "example 2", &block, pack(3, 0, 0, 1));
    put_word(block.bytes, K_NROW, 1);
    block_seal(&block);
    check_answer(tally, "example 8", &block, pack(9, 1, 1, 0));
    check_file(tally, "example/k-damaged.block", &block);
}

/* K, and its text with these columns in the place of others. */
static void k_with(struct block *block, uint8_t *text, size_t before, const char *columns)
{
    block_of_k(block);
    reference_to_lines(block->bytes, block->length, text, K_TEXT);
    memcpy(text + before, columns, strlen(columns));
}

static void check_good_field(struct tally *tally, const char *columns, int value)
{
    static struct block block;
    uint8_t text[K_TEXT];
    struct bytes lines = {text, sizeof text}, words = {block.bytes, 0};

    k_with(&block, text, BEFORE_VALUE, columns);
    put_word(block.bytes, K_VALUE, (uint16_t)value);
    block_seal(&block);
    words.length = block.length;
    check_accepted(tally, columns, lines, words);
}

static void check_bad_columns(struct tally *tally, size_t before, const char *columns, uint64_t answer)
{
    static struct block block;
    uint8_t text[K_TEXT];

    k_with(&block, text, before, columns);
    check_refused(tally, columns, text, sizeof text, answer);
}

/* Example 7. */
static void check_fields(struct tally *tally)
{
    check_good_field(tally, "-32768", -32768);
    check_good_field(tally, "032767", 32767);
    check_good_field(tally, "    +5", 5);
    check_good_field(tally, "    -0", 0);
    check_bad_columns(tally, BEFORE_VALUE, "-32769", pack(22, 5, 7, 0));
    check_bad_columns(tally, BEFORE_VALUE, "032768", pack(22, 5, 7, 0));
    check_bad_columns(tally, BEFORE_VALUE, "12    ", pack(22, 5, 7, 0));
    check_bad_columns(tally, BEFORE_VALUE, "      ", pack(22, 5, 7, 0));
}

/* Columns put into lines after these were judged: writing answers for the lines that it finds, in either direction. */
static void check_judged_again(struct tally *tally, struct text_calls calls)
{
    static struct block block;
    uint8_t text[K_TEXT], written[K_BYTES];
    uint64_t size = pack(0, sizeof written, 0, 0), bad_field = pack(22, 5, 7, 0);

    k_with(&block, text, BEFORE_VALUE, "   900");
    check(tally, "good lines", calls.judge(text, sizeof text) == size);
    memcpy(text + BEFORE_VALUE, "-32769", FIELD_COLUMNS);
    check(tally, "good lines, then bad", calls.write(text, sizeof text, written, sizeof written) == bad_field);
    check(tally, "bad lines", calls.judge(text, sizeof text) == bad_field);
    memcpy(text + BEFORE_VALUE, "   900", FIELD_COLUMNS);
    check(tally, "bad lines, then good", calls.write(text, sizeof text, written, sizeof written) == size);
    check(tally, "bad lines, then good, block", memcmp(written, block.bytes, sizeof written) == 0);
}

/* JPAR, MPAR and NROW: their sum is K's again in 16 bits; it is negative in 16 bits; MPAR is too low. */
static void check_counts(struct tally *tally)
{
    check_bad_columns(tally, BEFORE_JPAR, "     2     4 16384", pack(28, 1, 1, 0));
    check_bad_columns(tally, BEFORE_JPAR, "     1 32767 32767", pack(28, 1, 1, 0));
    check_bad_columns(tally, BEFORE_JPAR, "     1    -1    -1", pack(27, 1, 85, 0));
}

static void check_smallest(struct tally *tally)
{
    static const int words[] = {18, 16, 1002, 30, 1, 1983, 508, 1422, 0, 1983, 508, 1422, 0, 16, 0, 0, 0, 999};
    static struct block block;

    block_of(&block, words, sizeof words / sizeof words[0]);
    check_answer(tally, "example 6", &block, pack(0, 1, 0, 0));
}

static void check_largest(struct tally *tally)
{
    static struct block block;

    block_of_most_data(&block);
    check_answer(tally, "the most Data words", &block, pack(0, 1, 0, 0));
    check_length(tally, "the longest text", &block, CEDAR_TEXT_MOST);
    block_of_most_cards(&block);
    check_answer(tally, "example 9, Catalogue of 199 lines", &block, pack(0, 1, 0, 0));
    check_length(tally, "text of a Catalogue of 199 lines", &block, 121 + 198 * 81);
}

/* Catalogues: field 1 decides, whatever lines there are. */
static void check_line_counts(struct tally *tally)
{
    static struct block block;
    static uint8_t text[CEDAR_TEXT_MOST];
    size_t length;

    block_of_most_cards(&block);
    length = cedar_a(reference_to_lines(block.bytes, block.length, text, sizeof text));
    memcpy(text, "   200", FIELD_COLUMNS);
    check_refused(tally, "example 9, field 1 of 200", text, length, pack(24, 1, 1, 0));
    memcpy(text, "     0", FIELD_COLUMNS);
    check_refused(tally, "field 1 of 0", text, length, pack(24, 1, 1, 0));
    memcpy(text, "   199", FIELD_COLUMNS);
    check_refused(tally, "a line that lacks", text, length - 81, pack(25, 199, 1, 0));
}

/* As many lines as a text can have, and their last one. */
static void check_most_lines(struct tally *tally)
{
    static uint8_t text[TEXT_MOST + 1];
    uint8_t *last = &text[TEXT_MOST - 1];

    memset(text, '\n', sizeof text);
    check_refused(tally, "no line", text, 0, pack(21, 0, 0, 0));
    check_refused(tally, "only empty lines", text, TEXT_MOST, pack(21, 0, 0, 0));
    check_refused(tally, "a line too many", text, TEXT_MOST + 1, pack(30, 0, 0, 0));
    *last = '0';
    check_refused(tally, "line 65,536 without a field", text, TEXT_MOST, pack(22, TEXT_MOST, 1, 0));
    *last = CARD_MOST + 1;
    check_refused(tally, "line 65,536 with a bad byte", text, TEXT_MOST, pack(20, TEXT_MOST, 1, 0));
}

/* The calls on a sheet, of the library or of the reference; and K with its sheet, which they change. */
struct sheet_calls {
    starting *start;
    amending *amend;
    undoing *undo;
};

struct amended_k {
    const struct sheet_calls *calls;
    struct block block;
    uint8_t sheet[SHEET_BYTES];
};

static void begin_k(struct amended_k *k, const struct sheet_calls *calls)
{
    k->calls = calls;
    block_of_k(&k->block);
    memset(k->sheet, '*', sizeof k->sheet);
    calls->start(k->sheet, sizeof k->sheet);
}

static uint64_t amend_k(struct amended_k *k, uint16_t record, uint16_t word, uint16_t old_value, uint16_t new_value)
{
    return k->calls->amend(k->block.bytes, k->block.length, k->sheet, sizeof k->sheet, record, word, old_value,
                           new_value);
}

static uint64_t undo_k(struct amended_k *k)
{
    return k->calls->undo(k->block.bytes, k->block.length, k->sheet, sizeof k->sheet);
}

static bool is_untouched(const struct amended_k *k)
{
    static const uint8_t empty[SHEET_BYTES] = {'A', 'M', 'D', 0, 1};
    static struct block block;

    block_of_k(&block);
    return memcmp(k->block.bytes, block.bytes, block.length) == 0 && memcmp(k->sheet, empty, sizeof empty) == 0;
}

/* K's text, but for these columns of word 22. */
static bool shows(const struct amended_k *k, const char *columns)
{
    static struct block block;
    uint8_t text[K_TEXT], expected[K_TEXT];

    k_with(&block, expected, BEFORE_VALUE, columns);
    return cedar_to_lines(k->block.bytes, k->block.length, text, sizeof text) == pack(0, K_TEXT, 0, 0) &&
           memcmp(text, expected, sizeof text) == 0;
}

/* Examples 3 and 4. */
static void check_amended(struct tally *tally, const struct sheet_calls *calls)
{
    static const uint8_t one_entry[SHEET_BYTES] = {'A', 'M', 'D', 0, 1, 0, 1, 0, 0, 1, 0, 0x16, 3, 0x84, 3, 0x89};
    static struct amended_k k;

    begin_k(&k, calls);
    check(tally, "a started sheet", is_untouched(&k));
    check(tally, "example 3", amend_k(&k, 1, 22, 900, 905) == pack(0, 1, 0, 0));
    check(tally, "example 3, checksum", word_at(k.block.bytes, k.block.words) == (uint16_t)-32527);
    check(tally, "example 3, line 5", shows(&k, "   905"));
    check(tally, "example 3, entry", memcmp(k.sheet, one_entry, sizeof one_entry) == 0);
    check(tally, "example 4", undo_k(&k) == pack(0, 0, 0, 0) && is_untouched(&k));
    check(tally, "an empty sheet", undo_k(&k) == pack(45, 0, 0, 0) && is_untouched(&k));
}

/* The new value is the old one: K stays, and the entry stands. */
static void check_same(struct tally *tally, const struct sheet_calls *calls)
{
    static const uint8_t one_entry[SHEET_BYTES] = {'A', 'M', 'D', 0, 1, 0, 1, 0, 0, 1, 0, 0x16, 3, 0x84, 3, 0x84};
    static struct amended_k k;

    begin_k(&k, calls);
    check(tally, "the old value again", amend_k(&k, 1, 22, 900, 900) == pack(0, 1, 0, 0) && shows(&k, "   900"));
    check(tally, "the old value again, entry", memcmp(k.sheet, one_entry, sizeof one_entry) == 0);
    check(tally, "the old value again, undone", undo_k(&k) == pack(0, 0, 0, 0) && is_untouched(&k));
}

/* Example 5, the other words about K's values, and the records about K's only one. */
static void check_places(struct tally *tally, const struct sheet_calls *calls)
{
    static const uint16_t others[] = {0, 1, 16, 17, 19, 20, 25, 26, 65535};
    static struct amended_k k;

    begin_k(&k, calls);
    check(tally, "example 5, old value", amend_k(&k, 1, 22, 901, 905) == pack(43, 900, 0, 0));
    for (size_t i = 0; i < sizeof others / sizeof others[0]; i++)
        check(tally, "example 5, no value", amend_k(&k, 1, others[i], 550, 0) == pack(42, 0, 0, 0));
    check(tally, "no record 0", amend_k(&k, 0, 22, 900, 905) == pack(41, 0, 0, 0));
    check(tally, "no record 2", amend_k(&k, 2, 22, 900, 905) == pack(41, 0, 0, 0));
    check(tally, "no place, untouched", is_untouched(&k));
    check(tally, "K's 1-D value", amend_k(&k, 1, 18, 285, 0) == pack(0, 1, 0, 0));
    check(tally, "K's first 2-D value", amend_k(&k, 1, 21, 250, 0) == pack(0, 2, 0, 0));
    check(tally, "K's last 2-D value", amend_k(&k, 1, 24, (uint16_t)-32767, 0) == pack(0, 3, 0, 0));
}

/* 64 amendments of one place. */
static void fill_k(struct tally *tally, struct amended_k *k)
{
    for (uint16_t standing = 0; standing < STANDING_MOST; standing++)
        check(tally, "example 9, amendments",
              amend_k(k, 1, 22, 900 + standing, 901 + standing) == pack(0, 1u + standing, 0, 0));
}

/* Example 9: one more on a full sheet, and all undone, the last one first. */
static void check_full(struct tally *tally, const struct sheet_calls *calls)
{
    static struct amended_k k;
    uint16_t standing = STANDING_MOST;

    begin_k(&k, calls);
    fill_k(tally, &k);
    check(tally, "example 9, a 65th amendment", amend_k(&k, 1, 22, 964, 965) == pack(44, 0, 0, 0));
    check(tally, "a 65th amendment, no record", amend_k(&k, 0, 22, 964, 965) == pack(44, 0, 0, 0));
    check(tally, "a 65th amendment, untouched", shows(&k, "   964"));
    while (standing-- > 0)
        check(tally, "undoing of one place", undo_k(&k) == pack(0, standing, 0, 0));
    check(tally, "all undone", is_untouched(&k));
}

/* Whether undo gives 46, and leaves K and its sheet as they are. */
static bool refuses_undo(struct amended_k *k)
{
    static struct amended_k before;

    before = *k;
    return undo_k(k) == pack(46, 0, 0, 0) && memcmp(k->block.bytes, before.block.bytes, k->block.length) == 0 &&
           memcmp(k->sheet, before.sheet, sizeof k->sheet) == 0;
}

static void change_k(struct amended_k *k, uint16_t value)
{
    put_word(k->block.bytes, K_VALUE, value);
    block_seal(&k->block);
}

/* Another value in the block than the entry's new one, and the new one again. */
static void check_changed(struct tally *tally, const struct sheet_calls *calls)
{
    static struct amended_k k;

    begin_k(&k, calls);
    amend_k(&k, 1, 22, 900, 905);
    change_k(&k, 906);
    check(tally, "undo of another value", refuses_undo(&k));
    change_k(&k, 905);
    check(tally, "undo of the value again", undo_k(&k) == pack(0, 0, 0, 0) && is_untouched(&k));
}

/* Last entries that name no record, or no value: the length word, a code, the checksum. Each new value stands there. */
static void check_entries(struct tally *tally, const struct sheet_calls *calls)
{
    static const struct amendment others[] = {
        {{0, 22}, 905, 900},
        {{2, 22}, 905, 900},
        {{1, 0}, 905, 26},
        {{1, 20}, 905, 550},
        {{1, 25}, 905, (uint16_t)-32516},
    };
    static struct amended_k k;
    static struct sheet sheet;

    begin_k(&k, calls);
    for (size_t i = 0; i < sizeof others / sizeof others[0]; i++) {
        sheet_of(&sheet, &others[i], 1);
        memcpy(k.sheet, sheet.bytes, sizeof k.sheet);
        check(tally, "undo of no value", refuses_undo(&k));
    }
}

static void check_sheet(struct tally *tally)
{
    static const struct sheet_calls both[] = {
        {cedar_sheet_start, cedar_amend, cedar_undo},
        {reference_sheet_start, reference_amend, reference_undo},
    };

    for (size_t i = 0; i < sizeof both / sizeof both[0]; i++) {
        check_amended(tally, &both[i]);
        check_same(tally, &both[i]);
        check_places(tally, &both[i]);
        check_full(tally, &both[i]);
        check_changed(tally, &both[i]);
        check_entries(tally, &both[i]);
    }
}

static void check_prefix(struct tally *tally, uint16_t instrument, const char *letters)
{
    uint64_t answer = pack(0, (uint8_t)letters[0], (uint8_t)letters[1], (uint8_t)letters[2]);

    check(tally, letters, cedar_prefix(instrument) == answer && reference_prefix(instrument) == answer);
}

void check_paper(struct tally *tally)
{
    check_k(tally);
    check_smallest(tally);
    check_largest(tally);
    check_fields(tally);
    check_judged_again(tally, library);
    check_judged_again(tally, reference);
    check_counts(tally);
    check_line_counts(tally);
    check_most_lines(tally);
    check_examples(tally);
    check_sheet(tally);
    check_prefix(tally, 30, "MLH");
    check_prefix(tally, 5140, "AQF");
    check_prefix(tally, 7240, "---");
}

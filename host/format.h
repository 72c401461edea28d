/* The numbers of the binary block, of its lines and of its amendment sheet in document 01, and of document 02. */
#ifndef FORMAT_H
#define FORMAT_H

#include <stddef.h>

/* Kinds of records. */
enum { DATA = 1002, CATALOGUE = 2001, HEADER = 3002 };

/* Words of a Data record that hold its counts. */
enum { LPROL = 13, JPAR = 14, MPAR = 15, NROW = 16 };

/* The first word that must be zero. */
enum { CATALOGUE_ZERO = 13, HEADER_ZERO = 16 };

/* Words: of a block at least and at most, of a Data prologue at least, of a prologue line or a card. */
enum { BLOCK_LEAST = 18, BLOCK_MOST = 8000, PROLOGUE_LEAST = 16, LINE_WORDS = 40 };

/* Bytes of a card. */
enum { CARD_LEAST = 32, CARD_MOST = 126 };

/* What the kinds become in lines. */
enum { DATA_IN_LINES = 1101, CATALOGUE_IN_LINES = 2101, HEADER_IN_LINES = 3101 };

/* Columns of a number field and of a card, and fields of a full line. */
enum { FIELD_COLUMNS = 6, CARD_COLUMNS = 80, LINE_FIELDS = 20 };

/* At most: columns of a line, lines of a Catalogue or Header, words of a block's records, bytes of a text. */
enum { LINE_COLUMNS = FIELD_COLUMNS * LINE_FIELDS, CARDS_LINES = 199, WORDS_MOST = BLOCK_MOST - 2, TEXT_MOST = 65536 };

/* Bytes of a sheet before its version, count, zero byte and entries, of all of it, and of an entry. */
enum { BEFORE_VERSION = 3, BEFORE_COUNT = 5, BEFORE_ZERO = 7, BEFORE_ENTRIES = 8, SHEET_BYTES = 520, ENTRY_BYTES = 8 };

/* The mark and the version of a sheet, and the most amendments that stand. */
#define SHEET_MARK "AMD"
enum { SHEET_VERSION = 1, STANDING_MOST = 64 };

/* Bytes of the longest slice of blocks. */
enum { SLICE_BYTES = 64000 };

static inline size_t lines_of_fields(size_t fields)
{
    return (fields + LINE_FIELDS - 1) / LINE_FIELDS;
}

/* How many of these stand on the first line. */
static inline size_t fields_of_line(size_t fields)
{
    return fields < LINE_FIELDS ? fields : LINE_FIELDS;
}

#endif

#include "reference.h"

#include <string.h>

#include "cedar.h"
#include "format.h"
#include "words.h"

/* What is wrong with a record: refusal n at a word of it; n is 0 where nothing is. */
struct fault {
    unsigned n;
    size_t word;
};

static const struct fault none = {0, 0};

static struct fault fault(unsigned n, size_t word)
{
    struct fault found = {n, word};

    return found;
}

static int32_t signed_word(const uint8_t *record, size_t number)
{
    return (int16_t)word_at(record, number);
}

static struct fault judge_zeros(const uint8_t *record, size_t first)
{
    for (size_t word = first; word <= LINE_WORDS; word++)
        if (word_at(record, word) != 0)
            return fault(7, word);
    return none;
}

static struct fault judge_cards(const uint8_t *record, size_t ltot)
{
    for (size_t byte = bytes_of(LINE_WORDS); byte < bytes_of(ltot); byte++)
        if (record[byte] < CARD_LEAST || record[byte] > CARD_MOST)
            return fault(8, words_of(byte) + 1);
    return none;
}

static struct fault judge_catalogue(const uint8_t *record, size_t left, size_t first_zero)
{
    int32_t ltot = signed_word(record, 1);
    struct fault zeros;

    if (ltot < LINE_WORDS || ltot % LINE_WORDS != 0 || (size_t)ltot > left)
        return fault(6, 1);
    zeros = judge_zeros(record, first_zero);
    return zeros.n != 0 ? zeros : judge_cards(record, (size_t)ltot);
}

static struct fault judge_data(const uint8_t *record, size_t left)
{
    int32_t ltot = signed_word(record, 1);
    int32_t lprol = signed_word(record, LPROL);
    int32_t jpar = signed_word(record, JPAR);
    int32_t mpar = signed_word(record, MPAR);
    int32_t nrow = signed_word(record, NROW);

    if (ltot < PROLOGUE_LEAST || (size_t)ltot > left)
        return fault(6, 1);
    if (lprol < PROLOGUE_LEAST)
        return fault(9, LPROL);
    if (jpar < 0)
        return fault(9, JPAR);
    if (mpar < 0)
        return fault(9, MPAR);
    if (nrow < 0)
        return fault(9, NROW);
    /* With every count under 2^15 the sum is under 2^31. */
    return ltot == lprol + 2 * jpar + mpar * (nrow + 1) ? none : fault(9, 1);
}

/* `left` is the number of words from the record's first one to the block's last record word. */
static struct fault judge_record(const uint8_t *record, size_t left)
{
    if (left < PROLOGUE_LEAST)
        return fault(4, 1);
    switch (word_at(record, 2)) {
    case CATALOGUE:
        return judge_catalogue(record, left, CATALOGUE_ZERO);
    case HEADER:
        return judge_catalogue(record, left, HEADER_ZERO);
    case DATA:
        return judge_data(record, left);
    default:
        return fault(5, 2);
    }
}

static uint64_t judge_records(const uint8_t *record, size_t left)
{
    uint64_t records = 0;

    while (left > 0) {
        struct fault found = judge_record(record, left);
        size_t ltot;

        records++;
        if (found.n != 0)
            return pack(found.n, records, found.word, 0);
        ltot = word_at(record, 1);
        record += bytes_of(ltot);
        left -= ltot;
    }
    return pack(0, records, 0, 0);
}

static unsigned count_of_ones(uint16_t word)
{
    unsigned ones = 0;

    for (; word != 0; word &= (uint16_t)(word - 1))
        ones++;
    return ones;
}

uint64_t reference_judge(const uint8_t *block, size_t length)
{
    size_t words = words_of(length);
    uint16_t wrong;

    if (length != bytes_of(words) || words < BLOCK_LEAST || words > BLOCK_MOST)
        return pack(1, 0, 0, 0);
    if (word_at(block, 1) != words)
        return pack(2, 0, 0, 0);
    wrong = exclusive_or(block, words - 1) ^ word_at(block, words);
    if (wrong != 0)
        return pack(3, 0, 0, count_of_ones(wrong));
    return judge_records(block + bytes_of(1), words - 2);
}

static size_t lines_of_data(const uint8_t *record)
{
    /* The 2-D codes take the lines of one more row. */
    size_t rows = word_at(record, NROW) + 1u;

    return lines_of_fields(word_at(record, LPROL)) + 2 * lines_of_fields(word_at(record, JPAR)) +
           lines_of_fields(word_at(record, MPAR)) * rows;
}

static size_t lines_of_record(const uint8_t *record)
{
    return word_at(record, 2) == DATA ? lines_of_data(record) : word_at(record, 1) / LINE_WORDS;
}

/* The bytes of the record's lines, each with its LF. */
static size_t text_of_record(const uint8_t *record)
{
    size_t lines = lines_of_record(record);

    if (word_at(record, 2) == DATA)
        return FIELD_COLUMNS * word_at(record, 1) + lines;
    return FIELD_COLUMNS * LINE_FIELDS + CARD_COLUMNS * (lines - 1) + lines;
}

static size_t text_of_records(const uint8_t *record, const uint8_t *end)
{
    size_t bytes = 0;

    for (; record < end; record += bytes_of(word_at(record, 1)))
        bytes += text_of_record(record);
    return bytes;
}

/* These write at `text`, and give the place after what they wrote. */
static uint8_t *write_field(uint8_t *text, int32_t value)
{
    uint32_t rest = (uint32_t)(value < 0 ? -value : value);
    uint8_t *first = text + FIELD_COLUMNS;

    memset(text, ' ', FIELD_COLUMNS);
    for (; rest > 9; rest /= 10)
        *--first = (uint8_t)('0' + rest % 10);
    *--first = (uint8_t)('0' + rest);
    if (value < 0)
        *--first = '-';
    return text + FIELD_COLUMNS;
}

static uint8_t *write_line_end(uint8_t *text)
{
    *text = '\n';
    return text + 1;
}

static uint8_t *write_line(uint8_t *text, const uint8_t *line, size_t fields)
{
    for (size_t number = 1; number <= fields; number++)
        text = write_field(text, signed_word(line, number));
    return write_line_end(text);
}

/* A part without fields takes no line. */
static uint8_t *write_part(uint8_t *text, const uint8_t *part, size_t fields)
{
    for (; fields > LINE_FIELDS; fields -= LINE_FIELDS, part += bytes_of(LINE_FIELDS))
        text = write_line(text, part, LINE_FIELDS);
    return fields > 0 ? write_line(text, part, fields) : text;
}

static uint8_t *write_data(uint8_t *text, const uint8_t *record)
{
    size_t lprol = word_at(record, LPROL);
    size_t jpar = word_at(record, JPAR);
    size_t mpar = word_at(record, MPAR);
    const uint8_t *end = record + bytes_of(word_at(record, 1));
    const uint8_t *codes = record + bytes_of(lprol);
    const uint8_t *values = codes + bytes_of(jpar);

    text = write_part(text, record, lprol);
    text = write_part(text, codes, jpar);
    text = write_part(text, values, jpar);
    /* The 2-D codes are written as the rows are. */
    for (const uint8_t *row = values + bytes_of(jpar); row < end; row += bytes_of(mpar))
        text = write_part(text, row, mpar);
    return text;
}

static uint8_t *write_catalogue(uint8_t *text, const uint8_t *record)
{
    const uint8_t *end = record + bytes_of(word_at(record, 1));

    text = write_part(text, record, LINE_FIELDS);
    for (const uint8_t *card = record + bytes_of(LINE_WORDS); card < end; card += CARD_COLUMNS) {
        memcpy(text, card, CARD_COLUMNS);
        text = write_line_end(text + CARD_COLUMNS);
    }
    return text;
}

static int32_t kind_in_lines(uint16_t kind)
{
    return kind == DATA ? DATA_IN_LINES : kind == CATALOGUE ? CATALOGUE_IN_LINES : HEADER_IN_LINES;
}

static uint8_t *write_record(uint8_t *text, const uint8_t *record)
{
    uint16_t kind = word_at(record, 2);
    uint8_t *end = kind == DATA ? write_data(text, record) : write_catalogue(text, record);

    /* Only the first two fields are not as the words are. */
    write_field(text, (int32_t)lines_of_record(record));
    write_field(text + FIELD_COLUMNS, kind_in_lines(kind));
    return end;
}

uint64_t reference_to_lines(const uint8_t *block, size_t block_length, uint8_t *text, size_t text_length)
{
    uint64_t judged = reference_judge(block, block_length);
    const uint8_t *record, *end;
    size_t needed;

    if (cedar_n(judged) != 0)
        return judged;
    record = block + bytes_of(1);
    end = block + block_length - bytes_of(1);
    needed = text_of_records(record, end);
    if (text_length < needed)
        return pack(29, needed, 0, 0);
    for (; record < end; record += bytes_of(word_at(record, 1)))
        text = write_record(text, record);
    return pack(0, needed, 0, 0);
}

/* Document 000, Table 3, first listing; 7240 stands there without a prefix. */
static const struct prefix {
    uint16_t instrument;
    char letters[4];
} prefixes[] = {
    {10, "JRO"},   {20, "ARO"},   {25, "MUI"},   {30, "MLH"},   {31, "MLH"},   {32, "MLH"},
    {33, "MLH"},   {40, "STS"},   {41, "STS"},   {42, "STS"},   {43, "STS"},   {50, "CHT"},
    {70, "EIS"},   {71, "EIS"},   {72, "EIS"},   {73, "EIS"},   {74, "EIS"},   {80, "SON"},
    {120, "IMF"},  {175, "EHP"},  {180, "EQB"},  {210, "GPI"},  {211, "AEI"},  {212, "DST"},
    {310, "GCM"},  {311, "ARE"},  {320, "SDT"},  {321, "SDL"},  {322, "GSW"},  {820, "HHF"},
    {830, "SYF"},  {845, "KHF"},  {861, "SHF"},  {870, "GBF"},  {900, "FHF"},  {910, "WHF"},
    {911, "EHF"},  {1040, "ARM"}, {1140, "PKR"}, {1210, "SBF"}, {1220, "MAF"}, {1230, "CCF"},
    {1240, "ADF"}, {1320, "COF"}, {1340, "SAF"}, {1390, "TRF"}, {1560, "ATM"}, {1620, "DUM"},
    {2090, "CIA"}, {2200, "PLA"}, {2930, "QAD"}, {5020, "HFP"}, {5140, "AQF"}, {5160, "AFP"},
    {5300, "PFP"}, {5340, "MFP"}, {5430, "WFP"}, {5460, "CFP"}, {5480, "SFP"}, {5540, "TFP"},
    {5860, "STM"}, {6300, "UIL"}, {6320, "CSL"},
};

/* The instrument's row is sought in [low, high), which halves until it is empty. */
static const char *letters_of(uint16_t instrument)
{
    size_t low = 0;
    size_t high = sizeof prefixes / sizeof prefixes[0];

    while (low < high) {
        size_t middle = (low + high) / 2;

        if (prefixes[middle].instrument == instrument)
            return prefixes[middle].letters;
        if (prefixes[middle].instrument < instrument)
            low = middle + 1;
        else
            high = middle;
    }
    return "---";
}

uint64_t reference_prefix(uint16_t instrument)
{
    const char *letters = letters_of(instrument);

    return pack(0, (uint8_t)letters[0], (uint8_t)letters[1], (uint8_t)letters[2]);
}

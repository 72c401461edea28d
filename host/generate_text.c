#include "generate_text.h"

#include "generate.h"
#include "spell.h"
#include "spoil.h"

static void write_standard(struct chance *chance, struct page *page)
{
    static struct block block;

    page_begin(page);
    generate_good(chance, &block);
    page_add(page, &block);
}

static void write_spelled(struct chance *chance, struct page *page)
{
    write_standard(chance, page);
    spell_page(chance, page);
}

static void spoil_once(struct chance *chance, struct page *page)
{
    write_standard(chance, page);
    if (one_in(chance, 2))
        spell_page(chance, page);
    spoil_page(chance, page);
}

static void spoil_twice(struct chance *chance, struct page *page)
{
    spoil_once(chance, page);
    spoil_page(chance, page);
}

/* Records of about the most words, with all their lines. */
static void write_most(struct chance *chance, struct page *page)
{
    static struct block block;
    size_t words = WORDS_MOST - 1 + between(chance, 0, 3);
    size_t first = between(chance, PROLOGUE_LEAST, WORDS_MOST - LINE_WORDS);

    page_begin(page);
    generate_words(chance, &block, first + 2);
    page_add(page, &block);
    generate_words(chance, &block, words - first + 2);
    page_add(page, &block);
}

/* One text in many is as large as a text can be; they take most of the time. */
static void write_any(struct chance *chance, struct page *page)
{
    static void (*const recipes[])(struct chance *, struct page *) = {
        write_standard, write_spelled, write_spelled, spoil_once,  spoil_once,  spoil_once,
        spoil_once,     spoil_twice,   spoil_twice,   spoil_twice, spoil_twice, spoil_twice,
    };

    if (one_in(chance, 100))
        write_most(chance, page);
    else
        PICK(chance, recipes)(chance, page);
}

static void print_any(struct chance *chance, struct text *text)
{
    static struct page page;

    write_any(chance, &page);
    page_print(&page, text);
}

static void print_spoilt(struct chance *chance, struct text *text)
{
    print_any(chance, text);
    do
        spoil_text(chance, text);
    while (one_in(chance, 3));
}

/* Bytes without any sense: of all sorts, or of those that fields are made of. */
static void print_bytes(struct chance *chance, struct text *text, size_t most)
{
    static const uint8_t fields[] = "     00123456789+-\r\n";
    size_t sorts = one_in(chance, 2) ? 256 : sizeof fields - 1;

    text->length = between(chance, 0, most);
    for (size_t i = 0; i < text->length; i++) {
        size_t sort = between(chance, 0, sorts - 1);

        text->bytes[i] = sorts == 256 ? (uint8_t)sort : fields[sort];
    }
}

/* Of about the most bytes, or of a length that is small when it is cut to 16 bits. */
static void print_filled(struct chance *chance, struct text *text)
{
    size_t length;

    if (one_in(chance, 4))
        print_bytes(chance, text, 2);
    else
        print_any(chance, text);
    length = one_in(chance, 4) ? TEXT_MOST + text->length : between(chance, TEXT_MOST - 1, TEXT_MOST + 1);
    if (length <= TEXT_ROOM)
        fill_text(chance, text, length);
    if (one_in(chance, 4))
        spoil_text(chance, text);
}

void generate_text(struct chance *chance, uint64_t number, struct text *text)
{
    enum { FILLED = 50, BYTES = 20, SPOILT = 5 };

    if (number % FILLED == 0)
        print_filled(chance, text);
    else if (number % BYTES == 1)
        print_bytes(chance, text, one_in(chance, 8) ? 2000 : 150);
    else if (number % SPOILT == 2)
        print_spoilt(chance, text);
    else
        print_any(chance, text);
}

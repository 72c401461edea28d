#include "compare_sheet.h"

#include <string.h>

#include "cedar.h"
#include "damage.h"
#include "generate.h"
#include "generate_sheet.h"
#include "reference.h"
#include "story.h"

/* Answers of a sheet call beside those that a block alone decides. */
#define AMEND_ANSWERS (ANSWER(40) | ANSWER(41) | ANSWER(42) | ANSWER(43) | ANSWER(44))
#define UNDO_ANSWERS (ANSWER(40) | ANSWER(45) | ANSWER(46))

static uint64_t make_start(const struct trial *trial)
{
    return cedar_sheet_start(trial->lent[0].copy, trial->lent[0].length);
}

static uint64_t make_amend(const struct trial *trial)
{
    const struct lent *block = &trial->lent[0], *sheet = &trial->lent[1];
    const uint16_t *numbers = trial->numbers;

    return cedar_amend(block->copy, block->length, sheet->copy, sheet->length, numbers[0], numbers[1], numbers[2],
                       numbers[3]);
}

static uint64_t make_undo(const struct trial *trial)
{
    const struct lent *block = &trial->lent[0], *sheet = &trial->lent[1];

    return cedar_undo(block->copy, block->length, sheet->copy, sheet->length);
}

static struct call start = {"start", make_start, 1, 0, ANSWER(0) | ANSWER(40), {0}};
static struct call amend = {"amend", make_amend, 2, 4, BLOCK_ANSWERS | AMEND_ANSWERS, {0}};
static struct call undo = {"undo", make_undo, 2, 0, BLOCK_ANSWERS | UNDO_ANSWERS, {0}};

/* What is lent to amend and undo. */
struct both {
    struct block block;
    struct sheet sheet;
};

static void copy_both(struct both *to, const struct both *from)
{
    block_copy(&to->block, &from->block);
    sheet_copy(&to->sheet, &from->sheet);
}

static bool same_bytes(const struct both *one, const struct both *other)
{
    return memcmp(one->block.bytes, other->block.bytes, one->block.length) == 0 &&
           memcmp(one->sheet.bytes, other->sheet.bytes, one->sheet.length) == 0;
}

/* Tries a call of which the reference made `after` from `before`. */
static uint64_t compare_call(struct trials *trials, struct call *call, uint64_t answer, const struct both *before,
                             const struct both *after, struct amendment numbers)
{
    struct trial trial = {
        call,
        answer,
        {{"block", before->block.length, before->block.bytes, after->block.bytes, NULL, FIRST_BYTES},
         {"sheet", before->sheet.length, before->sheet.bytes, after->sheet.bytes, NULL, FIRST_BYTES}},
        {numbers.place.record, numbers.place.word, numbers.old_value, numbers.new_value},
    };

    try_call(trials, &trial);
    case_fails(trials, "a refusal that leaves both buffers", cedar_n(answer) == 0 || same_bytes(before, after));
    return answer;
}

/* Both leave in the buffers what the reference does. */
static uint64_t compare_amend(struct trials *trials, struct both *both, struct amendment amendment)
{
    static struct both before;
    uint64_t answer;

    copy_both(&before, both);
    answer = reference_amend(both->block.bytes, both->block.length, both->sheet.bytes, both->sheet.length,
                             amendment.place.record, amendment.place.word, amendment.old_value, amendment.new_value);
    return compare_call(trials, &amend, answer, &before, both, amendment);
}

static uint64_t compare_undo(struct trials *trials, struct both *both)
{
    static struct both before;
    struct amendment none = {{0, 0}, 0, 0};
    uint64_t answer;

    copy_both(&before, both);
    answer = reference_undo(both->block.bytes, both->block.length, both->sheet.bytes, both->sheet.length);
    return compare_call(trials, &undo, answer, &before, both, none);
}

static void fill_with_noise(struct chance *chance, struct sheet *sheet)
{
    for (size_t i = 0; i < SHEET_BYTES; i++)
        sheet->bytes[i] = (uint8_t)draw(chance);
}

/* The length alone decides; what is left is an empty sheet, or what was there. */
static bool is_started(uint64_t answer, const struct sheet *before, const struct sheet *after)
{
    static struct sheet empty;

    sheet_of(&empty, NULL, 0);
    if (before->length == SHEET_BYTES)
        return answer == pack(0, 0, 0, 0) && memcmp(after->bytes, empty.bytes, SHEET_BYTES) == 0;
    return answer == pack(40, 0, 0, 0) && memcmp(after->bytes, before->bytes, before->length) == 0;
}

/* On bytes without any sense, or on what the sheet was. */
static void compare_start(struct trials *trials, struct chance *chance, struct sheet *sheet)
{
    static struct sheet before;
    struct trial trial = {&start, 0, {{"sheet", sheet->length, before.bytes, sheet->bytes, NULL, FIRST_BYTES}}, {0}};

    if (one_in(chance, 2))
        fill_with_noise(chance, sheet);
    sheet_copy(&before, sheet);
    trial.answer = reference_sheet_start(sheet->bytes, sheet->length);
    try_call(trials, &trial);
    case_fails(trials, "a start told", is_started(trial.answer, &before, sheet));
}

/* Demand 3: the answer, and what both buffers are after it. */
static void check_told(struct trials *trials, const struct story *story, const char *what, bool answered,
                       const struct both *left)
{
    static struct both told;

    told.block.length = left->block.length;
    story_block(story, told.block.bytes);
    story_sheet(story, &told.sheet);
    case_fails(trials, what, answered && same_bytes(left, &told) && left->sheet.length == told.sheet.length);
}

static void tell_amend(struct trials *trials, struct story *story, struct both *both, struct amendment amendment)
{
    uint64_t answer = compare_amend(trials, both, amendment);

    check_told(trials, story, "an amendment told", story_amend(story, amendment) == answer, both);
}

static void tell_undo(struct trials *trials, struct story *story, struct both *both)
{
    uint64_t answer = compare_undo(trials, both);

    check_told(trials, story, "an undo told", story_undo(story) == answer, both);
}

/* The library's lines are the first block's but for the amended columns. */
static void check_lines(struct trials *trials, const struct story *story, const struct block *block)
{
    static uint8_t found[CEDAR_TEXT_MOST], told[CEDAR_TEXT_MOST];
    uint64_t answer = cedar_to_lines(block->bytes, block->length, found, sizeof found);

    story_text(story, told);
    case_fails(trials, "lines told",
               answer == pack(0, story->text_length, 0, 0) && memcmp(found, told, story->text_length) == 0);
}

/* Often one that was amended, or the first or the last one. */
static struct place choose_value(struct chance *chance, const struct story *story)
{
    if (story->standing > 0 && one_in(chance, 3))
        return story->stack[between(chance, 0, story->standing - 1)].place;
    if (one_in(chance, 8))
        return story->value[one_in(chance, 2) ? 0 : story->values - 1];
    return story->value[between(chance, 0, story->values - 1)];
}

/* One that is accepted where there is room, unless its old value is changed. */
static struct amendment choose_amendment(struct chance *chance, const struct story *story)
{
    struct amendment chosen = {choose_value(chance, story), 0, any_value(chance)};

    chosen.old_value = story_value(story, chosen.place);
    if (one_in(chance, 8))
        chosen.new_value = chosen.old_value;
    if (one_in(chance, 12))
        chosen.old_value = like_word(chance, chosen.old_value);
    return chosen;
}

static struct amendment any_amendment(struct chance *chance, const struct story *story, const struct block *block)
{
    if (story->values == 0 || one_in(chance, 4))
        return guess_amendment(chance, block);
    /* The last one again: its old value stands no longer. */
    if (story->standing > 0 && one_in(chance, 12))
        return story->stack[story->standing - 1];
    return choose_amendment(chance, story);
}

static uint64_t compare_either(struct trials *trials, struct chance *chance, const struct story *story,
                               struct both *both)
{
    if (one_in(chance, 2))
        return compare_undo(trials, both);
    return compare_amend(trials, both, any_amendment(chance, story, &both->block));
}

static void break_sheet(struct trials *trials, struct chance *chance, const struct story *story, struct both *both)
{
    spoil_sheet(chance, &both->sheet);
    case_fails(trials, "40 for a broken sheet", compare_either(trials, chance, story, both) == pack(40, 0, 0, 0));
}

/* The block's refusal comes before the sheet's. */
static void break_block(struct trials *trials, struct chance *chance, const struct story *story, struct both *both)
{
    uint64_t judged;

    if (one_in(chance, 2)) {
        damage_frame(chance, &both->block);
    } else {
        damage_records(chance, &both->block);
        block_seal(&both->block);
    }
    judged = reference_judge(both->block.bytes, both->block.length);
    if (cedar_n(judged) != 0 && one_in(chance, 2))
        spoil_sheet(chance, &both->sheet);
    case_fails(trials, "a refused block's answer",
               compare_either(trials, chance, story, both) == judged || cedar_n(judged) == 0);
}

/* Any word but this one. */
static uint16_t other_word(struct chance *chance, uint16_t word)
{
    uint16_t like = like_word(chance, word);

    return like != word ? like : word ^ 1;
}

/* Another value stands where the last entry's new one should, and the checksum is right. */
static void change_value(struct trials *trials, struct chance *chance, const struct story *story, struct both *both)
{
    struct amendment last = story->stack[story->standing - 1];
    uint8_t *record = both->block.bytes + bytes_of(both->block.start[last.place.record - 1]);

    put_word(record, last.place.word, other_word(chance, last.new_value));
    block_seal(&both->block);
    case_fails(trials, "46 for another value", compare_undo(trials, both) == pack(46, 0, 0, 0));
}

/* Of these entries the last one alone counts: it is undone where it names a value and its new value stands there. */
static void undo_last(struct trials *trials, const struct story *story, struct both *both,
                      const struct amendment *entries)
{
    const struct amendment *last = &entries[story->standing - 1];
    uint64_t answer = pack(46, 0, 0, 0);

    sheet_of(&both->sheet, entries, story->standing);
    if (story_has(story, last->place) && story_value(story, last->place) == last->new_value)
        answer = pack(0, story->standing - 1, 0, 0);
    case_fails(trials, "other entries told", compare_undo(trials, both) == answer);
}

/* The last entry is another one. */
static void replace_entry(struct trials *trials, struct chance *chance, const struct story *story, struct both *both)
{
    struct amendment entries[STANDING_MOST];

    memcpy(entries, story->stack, sizeof entries);
    entries[story->standing - 1] = guess_entry(chance, &both->block);
    undo_last(trials, story, both, entries);
}

/* Any entry has another number, often the last one. */
static void change_entry(struct trials *trials, struct chance *chance, const struct story *story, struct both *both)
{
    struct amendment entries[STANDING_MOST];
    size_t others = one_in(chance, 2) ? story->standing - 1 : between(chance, 0, story->standing - 1);
    struct amendment *entry = &entries[others];
    uint16_t *const numbers[] = {&entry->place.record, &entry->place.word, &entry->old_value, &entry->new_value};
    uint16_t *number = PICK(chance, numbers);

    memcpy(entries, story->stack, sizeof entries);
    *number = like_word(chance, *number);
    undo_last(trials, story, both, entries);
}

/* Entries of zeros within the count are let stand too, but name no place. */
static void change_count(struct trials *trials, struct chance *chance, const struct story *story, struct both *both)
{
    if (story->standing == STANDING_MOST)
        return;
    sheet_set_count(&both->sheet, between(chance, story->standing + 1, STANDING_MOST));
    case_fails(trials, "46 for an entry of zeros", compare_undo(trials, both) == pack(46, 0, 0, 0));
    compare_amend(trials, both, any_amendment(chance, story, &both->block));
}

/* Calls that find copies damaged; the story goes on without them. */
static void leave_story(struct trials *trials, struct chance *chance, const struct story *story,
                        const struct both *both)
{
    typedef void damage(struct trials *, struct chance *, const struct story *, struct both *);
    static damage *const always[] = {break_sheet, break_block, change_count};
    static damage *const while_one_stands[] = {change_value, replace_entry, change_entry};
    static struct both copy;

    copy_both(&copy, both);
    if (story->standing == 0 || one_in(chance, 2))
        PICK(chance, always)(trials, chance, story, &copy);
    else
        PICK(chance, while_one_stands)(trials, chance, story, &copy);
}

/* Amendments of one block: chance wants now many, now few of them to stand. */
static void tell_story(struct trials *trials, struct chance *chance, struct story *story, struct both *both)
{
    static const size_t seldom[] = {2, 3, 30, 200};
    size_t undo_in = PICK(chance, seldom);

    for (size_t calls = between(chance, 1, story->values == 0 ? 20 : 250); calls > 0; calls--) {
        if (one_in(chance, 40))
            undo_in = PICK(chance, seldom);
        if (one_in(chance, undo_in))
            tell_undo(trials, story, both);
        else
            tell_amend(trials, story, both, any_amendment(chance, story, &both->block));
        if (one_in(chance, 8))
            check_lines(trials, story, &both->block);
        if (one_in(chance, 4))
            leave_story(trials, chance, story, both);
    }
}

/* Undoing all, and once more, gives back the first block and the empty sheet. */
static void end_story(struct trials *trials, struct story *story, struct both *both)
{
    while (story->standing > 0)
        tell_undo(trials, story, both);
    tell_undo(trials, story, both);
    case_fails(trials, "the first block again",
               memcmp(both->block.bytes, story->first.bytes, story->first.length) == 0);
    check_lines(trials, story, &both->block);
}

static void compare_story(struct trials *trials, struct chance *chance)
{
    static struct story story;
    static struct both both;

    /* Blocks without a value are soon told. */
    do {
        generate_amendable(chance, &both.block);
        story_begin(&story, &both.block);
    } while (story.values == 0 && !one_in(chance, 8));
    both.sheet.length = SHEET_BYTES;
    compare_start(trials, chance, &both.sheet);
    tell_story(trials, chance, &story, &both);
    end_story(trials, &story, &both);
}

/* Any block and any sheet, whether they belong together or not. */
static void compare_any(struct trials *trials, struct chance *chance)
{
    static struct both both;

    generate_block(chance, trials->number, &both.block);
    generate_sheet(chance, &both.block, &both.sheet);
    if (one_in(chance, 8))
        spoil_sheet(chance, &both.sheet);
    if (one_in(chance, 2))
        compare_undo(trials, &both);
    compare_amend(trials, &both, guess_amendment(chance, &both.block));
    compare_undo(trials, &both);
    compare_start(trials, chance, &both.sheet);
}

void compare_sheet(struct trials *trials, struct chance *chance)
{
    enum { ANY = 3, STORY = 50 };

    if (trials->number % ANY == 0)
        compare_any(trials, chance);
    if (trials->number % STORY == 0)
        compare_story(trials, chance);
}

void print_sheet_reached(struct trials *trials)
{
    print_reached(trials, &start);
    print_reached(trials, &amend);
    print_reached(trials, &undo);
}

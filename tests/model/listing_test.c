/* The self-test of the model of the listing reader: cases worked out by hand, sizes at the limit, and what
 * must hold of any list: the patterns of document 004 as a second reading, and each command cut short. */
#include <inttypes.h>
#include <stdio.h>
#include <stdlib.h>
#include <string.h>

#include "draw.h"
#include "listing.h"
#include "pattern.h"

static uint64_t checks;

/* Counts a check; the first that fails is named, with the answer at issue, and ends the run. */
static void check(bool good, const char *sentence, struct setting setting, struct listed listed,
                  uint64_t place)
{
    const uint32_t *value = listed.reading.value;

    checks++;
    if (good)
        return;
    fprintf(stderr, "listing model: failed: %s (level %" PRIu32 ", mode %" PRIu32 ", SLI %s", sentence,
            setting.level, setting.mode, setting.sli ? "on" : "off");
    fprintf(stderr,
            "; answer %" PRIu32 ", reading %" PRIu32 ", values 0x%" PRIx32 " 0x%" PRIx32 " 0x%" PRIx32,
            listed.answer, listed.reading.number, value[0], value[1], value[2]);
    fprintf(stderr, ", why %" PRIu32 ", place %" PRIu64 ")\n", listed.reading.why, place);
    exit(1);
}

static bool same(struct listed a, struct listed b)
{
    return a.answer == b.answer && a.reading.number == b.reading.number &&
           memcmp(a.reading.value, b.reading.value, sizeof a.reading.value) == 0 &&
           a.reading.why == b.reading.why;
}

/* ---- What is lent ---- */

enum { LIST_ROOM = SIZE_LIMIT + 4 };

/* The words of a case. */
static uint32_t list[LIST_ROOM];
static size_t list_count;

static void give_words(const uint32_t *words, size_t count)
{
    memcpy(list, words, count * sizeof list[0]);
    list_count = count;
}

/* A copy of the first so many words that ends with its room, so that the sanitizers see what is read behind
 * it. */
static const uint32_t *lend(size_t count)
{
    static uint32_t room[LIST_ROOM];

    return memcpy(room + LIST_ROOM - count, list, count * sizeof list[0]);
}

/* The reader gives this answer and comes to this place. */
static void gives(const char *sentence, struct setting setting, uint64_t *place, struct listed wanted,
                  uint64_t after)
{
    struct listed listed = model_listing_next(setting, lend(list_count), list_count, place);

    check(same(listed, wanted) && *place == after, sentence, setting, listed, *place);
}

/* ---- Lists worked out by hand ---- */

enum { ROW_WORDS = 6, ROW_ANSWERS = 6, ROW_NUMBERS = 7 };

/* R1, R2, R4, R23, W14, W15, W16, K2, K3, K6: a list, the place to start from, and what is answered, the last
 * time with an end: the answer, the reading's number, values and why, and the place after it. */
static const struct row {
    const char *sentence;
    struct setting setting;
    uint32_t count;
    uint32_t words[ROW_WORDS];
    uint64_t start;
    uint64_t answers[ROW_ANSWERS][ROW_NUMBERS];
} rows[] = {
    {"no words", {0, 0, false}, 0, {0}, 0, {{2, 0, 0, 0, 0, 0, 0}}},
    {"no words, beyond", {0, 0, false}, 0, {0}, 7, {{2, 0, 0, 0, 0, 0, 7}}},
    {"a place beyond the words", {5, 1, true}, 1, {3}, 1, {{2, 0, 0, 0, 0, 0, 1}}},
    {"a place far beyond", {5, 1, true}, 1, {3}, UINT64_MAX, {{2, 0, 0, 0, 0, 0, UINT64_MAX}}},
    {"a place of 33 bits", {5, 1, true}, 1, {0}, 0x100000000, {{2, 0, 0, 0, 0, 0, 0x100000000}}},

    {"increasing, count 0", {0, 0, false}, 1, {0}, 0, {{1, 1, 0, 0, 0, 0, 1}, {2, 0, 0, 0, 0, 0, 1}}},
    {"increasing 2, subchannel 1, 0x0180", {3, 0, true}, 4, {0x00082180, 3, 3, 0}, 0,
     {{1, 1, 2, 1, 0x180, 0, 3}, {1, 1, 0, 0, 0, 0, 4}, {2, 0, 0, 0, 0, 0, 4}}},
    {"non-increasing 3, subchannel 7, 0x1ffc", {3, 0, true}, 5, {0x400cfffc, 0, 0, 0, 3}, 0,
     {{1, 2, 3, 7, 0x1ffc, 0, 4}, {3, 0, 0, 0, 0, 1, 4}}},
    {"SLI mask 5, which has no parameters", {3, 0, true}, 2, {0x00010050, 0x00010000}, 0,
     {{1, 3, 5, 0, 0, 0, 1}, {1, 3, 0, 0, 0, 0, 2}, {2, 0, 0, 0, 0, 0, 2}}},
    {"return, which has no parameters", {2, 0, false}, 2, {0x00020000, 0x00020004}, 0,
     {{1, 4, 0, 0, 0, 0, 1}, {3, 0, 0, 0, 0, 1, 1}}},
    {"jumps are not followed", {3, 0, false}, 4, {0x3ffffffc, 0x00002002, 0xfffffffd, 0x20000000}, 0,
     {{1, 6, 0x1ffffffc, 0, 0, 0, 1},
      {1, 8, 0x2000, 0, 0, 0, 2},
      {1, 7, 0xfffffffc, 0, 0, 0, 3},
      {1, 6, 0, 0, 0, 0, 4},
      {2, 0, 0, 0, 0, 0, 4}}},
    {"a jump, whatever its upper half", {2, 0, false}, 1, {0x00010001}, 0,
     {{1, 7, 0x10000, 0, 0, 0, 1}, {2, 0, 0, 0, 0, 0, 1}}},

    {"long, subchannel 2, 0x0100", {4, 1, false}, 5, {0x00034100, 0xab000002, 3, 3, 0}, 0,
     {{1, 5, 2, 0x100, 2, 0, 4}, {1, 1, 0, 0, 0, 0, 5}, {2, 0, 0, 0, 0, 0, 5}}},
    {"long, with bits above the count", {5, 1, true}, 3, {0x00030000, 0xff000000, 0x00000001}, 0,
     {{1, 5, 0, 0, 0, 0, 2}, {3, 0, 0, 0, 0, 3, 2}}},
    {"a long form without its count word", {4, 1, false}, 1, {0x00034100}, 0, {{4, 0, 0, 0, 0, 0, 0}}},
    {"a long form without its count word, after a command", {4, 1, true}, 2, {0x00010ff0, 0x00034100}, 0,
     {{1, 3, 255, 0, 0, 0, 1}, {4, 0, 0, 0, 0, 0, 1}}},
    {"a long form's parameters past the end", {4, 1, false}, 4, {0x00034100, 3, 0, 0}, 0,
     {{4, 0, 0, 0, 0, 0, 0}}},
    {"the longest long form", {4, 1, false}, 3, {0x00034100, 0xffffffff, 0}, 0, {{4, 0, 0, 0, 0, 0, 0}}},

    {"parameters past the end", {0, 0, false}, 1, {0x00040000}, 0, {{4, 0, 0, 0, 0, 0, 0}}},
    {"the last parameter past the end", {1, 0, false}, 4, {0, 0x400c0100, 1, 2}, 0,
     {{1, 1, 0, 0, 0, 0, 1}, {4, 0, 0, 0, 0, 0, 1}}},
    {"parameters up to the end", {0, 0, false}, 3, {0x00080100, 1, 2}, 0,
     {{1, 1, 2, 0, 0x100, 0, 3}, {2, 0, 0, 0, 0, 0, 3}}},
    {"the longest run", {0, 0, false}, 2, {0x1ffc0100, 0}, 0, {{4, 0, 0, 0, 0, 0, 0}}},
    {"a place among parameters", {0, 0, false}, 4, {0x000c0100, 0x20000008, 3, 0}, 1,
     {{1, 6, 8, 0, 0, 0, 2}, {3, 0, 0, 0, 0, 1, 2}}},

    {"a reserved word", {5, 0, true}, 2, {3, 0}, 0, {{3, 0, 0, 0, 0, 1, 0}}},
    {"non-increasing at level 0", {0, 0, false}, 2, {0x40040100, 0}, 0, {{3, 0, 0, 0, 0, 2, 0}}},
    {"reserved comes before short", {0, 0, false}, 1, {0x40040100}, 0, {{3, 0, 0, 0, 0, 2, 0}}},
    {"a jump at level 1", {1, 0, false}, 1, {0x00000001}, 0, {{3, 0, 0, 0, 0, 2, 0}}},
    {"an old jump in IB mode", {4, 1, false}, 1, {0x20000000}, 0, {{3, 0, 0, 0, 0, 3, 0}}},
    {"a long form in NV04-style", {5, 0, true}, 2, {0x00034100, 0}, 0, {{3, 0, 0, 0, 0, 3, 0}}},
    {"SLI off", {3, 0, false}, 1, {0x00010050}, 0, {{3, 0, 0, 0, 0, 4, 0}}},
    {"an SLI conditional below its level", {2, 0, false}, 1, {0x00010050}, 0, {{3, 0, 0, 0, 0, 2, 0}}},
    {"a long form below the levels of IB mode", {0, 0, false}, 1, {0x00034100}, 0, {{3, 0, 0, 0, 0, 3, 0}}},
    {"a why at the end of a list", {3, 0, false}, 3, {0, 0, 0x00034100}, 0,
     {{1, 1, 0, 0, 0, 0, 1}, {1, 1, 0, 0, 0, 0, 2}, {3, 0, 0, 0, 0, 3, 2}}},
    {"whys in IB mode", {4, 1, false}, 3, {0, 0x00010050, 0x00020000}, 0,
     {{1, 1, 0, 0, 0, 0, 1}, {3, 0, 0, 0, 0, 4, 1}}},
    {"whys in IB mode", {4, 1, false}, 3, {0, 0x00010050, 0x00020000}, 2, {{3, 0, 0, 0, 0, 3, 2}}},

    {"1 LEVEL", {6, 2, true}, 1, {0}, 0, {{5, 0, 1, 0, 0, 0, 0}}},
    {"1 LEVEL comes before the end", {UINT32_MAX, 0, false}, 0, {0}, 9, {{5, 0, 1, 0, 0, 0, 9}}},
    {"2 MODE", {5, 2, true}, 1, {3}, 0, {{5, 0, 2, 0, 0, 0, 0}}},
    {"2 MODE: IB below level 4", {2, 1, true}, 1, {3}, 1, {{5, 0, 2, 0, 0, 0, 1}}},
    {"4 SLI", {2, 0, true}, 1, {0x00040000}, 0, {{5, 0, 4, 0, 0, 0, 0}}},
};

static struct listed listed_of(const uint64_t answer[ROW_NUMBERS])
{
    struct reading reading = {(uint32_t)answer[1],
                              {(uint32_t)answer[2], (uint32_t)answer[3], (uint32_t)answer[4]},
                              (uint32_t)answer[5]};

    return (struct listed){(uint32_t)answer[0], reading};
}

/* K4: asked again at an end, or where it refuses, the reader gives the same. */
static void test_row(const struct row *row)
{
    uint64_t place = row->start;
    unsigned last = 0;

    give_words(row->words, row->count);
    while (row->answers[last][0] == LISTED_COMMAND)
        last++;
    for (unsigned i = 0; i < last + 3; i++) {
        const uint64_t *answer = row->answers[i < last ? i : last];

        gives(row->sentence, row->setting, &place, listed_of(answer), answer[6]);
    }
}

static void test_rows(void)
{
    for (size_t i = 0; i < sizeof rows / sizeof rows[0]; i++)
        test_row(&rows[i]);
}

/* ---- Sizes ---- */

static const struct listed past = {LISTED_PAST, {0, {0, 0, 0}, WHY_NONE}};
static const struct listed run_short = {LISTED_SHORT, {0, {0, 0, 0}, WHY_NONE}};

static struct listed refused(uint32_t refusal)
{
    return (struct listed){LISTED_REFUSED, {0, {refusal, 0, 0}, WHY_NONE}};
}

/* R8, R21, R23, K1: SIZE is the last in the order. Each question brings a setting of its own. */
static void test_sizes(void)
{
    struct setting setting = {5, MODE_NV04, true};
    struct listed zero = {LISTED_COMMAND, {READING_INCREASING, {0, 0, 0}, WHY_NONE}};
    uint64_t place = 0;

    memset(list, 0, sizeof list);
    list_count = 1048576;
    gives("1,048,576 words", setting, &place, zero, 1);
    place = 1048575;
    gives("the last of 1,048,576 words", setting, &place, zero, 1048576);
    gives("past 1,048,576 words", setting, &place, past, 1048576);
    list_count = 1048577;
    gives("8 SIZE comes before the end", setting, &place, refused(8), 1048576);
    place = 0;
    gives("8 SIZE", setting, &place, refused(8), 0);
    gives("1 LEVEL comes before 8", (struct setting){6, 0, false}, &place, refused(1), 0);
    gives("2 MODE comes before 8", (struct setting){3, 1, false}, &place, refused(2), 0);
    gives("4 SLI comes before 8", (struct setting){2, 0, true}, &place, refused(4), 0);
}

/* W15, K2, K3: a long form over all words, and one whose parameters are one too many. */
static void test_long_run(void)
{
    struct setting setting = {4, MODE_IB, false};
    struct listed wanted = {LISTED_COMMAND, {READING_LONG, {7, 0x1ffc, 1048574}, WHY_NONE}};
    uint64_t place = 0;

    memset(list, 0, sizeof list);
    list_count = 1048576;
    list[0] = 0x0003fffc;
    list[1] = 0x12000000 | 1048574;
    gives("a long form over all words", setting, &place, wanted, 1048576);
    place = 0;
    list[1]++;
    gives("a long form that runs short", setting, &place, run_short, 0);
    place = 1048574;
    list[1048574] = 0x0003fffc;
    list[1048575] = 0xff000000;
    wanted.reading.value[2] = 0;
    gives("a long form at the end", setting, &place, wanted, 1048576);
    place = 1048574;
    list[1048575] = 0x00000001;
    gives("a long form at the end that runs short", setting, &place, run_short, 1048574);
}

/* ---- What must hold of any list ---- */

/* W15: how many words a command takes, by the patterns; the count word of a long form is there. */
static uint64_t words_by_pattern(uint32_t number, uint64_t place)
{
    uint32_t count = gather(pattern_bits(patterns[number - 1], 'C'), list[place]);

    if (number == READING_LONG)
        return UINT64_C(2) + list[place + 1] % 0x1000000;
    return UINT64_C(1) + count;
}

/* W15, K2, K3: a command is what the word reads as, and takes all its words: without the last of them it is
 * short, and it needs none of those behind them. */
static void test_command(struct setting setting, struct listed listed, uint64_t place, uint64_t after)
{
    uint64_t again = place;
    struct reading reading = model_read(setting, list[place], list[place + 1]);
    struct listed other;

    check(same(listed, (struct listed){LISTED_COMMAND, reading}), "the reading of its words", setting, listed,
          place);
    check(after == place + words_by_pattern(reading.number, place), "its words by the patterns", setting,
          listed, place);
    other = model_listing_next(setting, lend(after), after, &again);
    check(same(other, listed) && again == after, "its words alone", setting, other, again);
    again = place;
    other = model_listing_next(setting, lend(after - 1), after - 1, &again);
    check(again == place, "a place that stays", setting, other, again);
    check(same(other, after - 1 == place ? past : run_short), "its words but the last", setting, other,
          again);
}

/* W20, W21, W22, W23, W24: the why of a reserved word, by its pattern: below the form's level that is it;
 * from there on a conditional lacks SLI, and any other form its mode. */
static uint32_t why_by_pattern(struct setting setting, uint32_t word)
{
    static const uint32_t levels[PATTERNS] = {0, 1, 3, 2, 0, 0, 2, 2};

    for (unsigned i = 0; i < PATTERNS; i++) {
        uint32_t ones = pattern_bits(patterns[i], '1');

        if ((word & (ones | pattern_bits(patterns[i], '0'))) != ones)
            continue;
        if (setting.level < levels[i])
            return WHY_LEVEL;
        return i == READING_SLI - 1 ? WHY_SLI : WHY_MODE;
    }
    return WHY_FORM;
}

/* K3, K4, K6: an end is the one that the word says, with its why, and stays. */
static void test_end(struct setting setting, struct listed listed, uint64_t place)
{
    uint64_t again = place;
    bool is_past = place >= list_count;
    uint32_t number = is_past ? 0 : model_read(setting, list[place], 0).number;
    bool is_reserved = number == READING_RESERVED;
    uint32_t why = is_reserved ? why_by_pattern(setting, list[place]) : WHY_NONE;
    struct listed other = model_listing_next(setting, lend(list_count), list_count, &again);

    check(same(other, listed) && again == place, "the same again", setting, other, again);
    check((listed.answer == LISTED_PAST) == is_past, "past where no word is", setting, listed, place);
    check((listed.answer == LISTED_RESERVED) == is_reserved, "reserved by its word", setting, listed, place);
    check(listed.reading.why == why, "the why of its word, and none without", setting, listed, place);
    if (listed.answer != LISTED_SHORT)
        return;
    if (number == READING_LONG && place + 1 == list_count)
        return;
    check(place + words_by_pattern(number, place) > list_count, "short by the patterns", setting, listed,
          place);
}

/* A word; the counts of most runs are small, and so are those of long forms, as one in four is a number. */
static uint32_t draw_list_word(struct draw *draw)
{
    uint32_t form = draw_below(draw, 2 * PATTERNS);
    uint32_t word = form < PATTERNS ? draw_form(draw, patterns[form]) : draw_word(draw);

    if (draw_once_in(draw, 4))
        return draw_below(draw, 6);
    if (form < 2 || form >= PATTERNS)
        return draw_once_in(draw, 4) ? word : word & 0xe00fffff;
    return word;
}

static void test_drawn(struct draw *draw)
{
    struct setting setting = draw_setting(draw);
    uint64_t place = draw_below(draw, 4);
    struct listed listed = {0};

    list_count = draw_below(draw, 30);
    /* One word more stands behind those that are lent; nothing may come of it. */
    for (size_t i = 0; i <= list_count; i++)
        list[i] = draw_list_word(draw);
    for (;;) {
        uint64_t before = place;

        listed = model_listing_next(setting, lend(list_count), list_count, &place);
        if (listed.answer != LISTED_COMMAND)
            break;
        test_command(setting, listed, before, place);
    }
    test_end(setting, listed, place);
}

/* ---- The program ---- */

int main(void)
{
    struct draw draw = {0x1157};

    test_rows();
    test_sizes();
    test_long_run();
    for (unsigned i = 0; i < 20000; i++)
        test_drawn(&draw);
    printf("listing model: %" PRIu64 " checks\n", checks);
    return 0;
}

/* The self-test of the model of words: the rule book's words to try, the patterns of document 004 as a second
 * reading, the whys as conditions that are tried one by one, and writing and reading back at every
 * setting. */
#include <inttypes.h>
#include <stdio.h>
#include <stdlib.h>
#include <string.h>

#include "draw.h"
#include "pattern.h"
#include "word.h"

static uint64_t checks;

/* Counts a check; the first that fails is named and ends the run. */
static void check(bool good, const char *name, struct setting setting, uint32_t word, uint32_t next)
{
    checks++;
    if (good)
        return;
    fprintf(stderr, "word model: failed: %s (level %" PRIu32 ", mode %" PRIu32 ", SLI %s", name,
            setting.level, setting.mode, setting.sli ? "on" : "off");
    fprintf(stderr, ", numbers 0x%08" PRIx32 " 0x%08" PRIx32 ")\n", word, next);
    exit(1);
}

static bool same(struct reading a, struct reading b)
{
    return a.number == b.number && memcmp(a.value, b.value, sizeof a.value) == 0 && a.why == b.why;
}

enum { ACCEPTED = 13 };

/* R1, R2, R4: all settings that are not refused. */
static const struct setting accepted[ACCEPTED] = {
    {0, MODE_NV04, false}, {1, MODE_NV04, false}, {2, MODE_NV04, false}, {3, MODE_NV04, false},
    {3, MODE_NV04, true},  {4, MODE_NV04, false}, {4, MODE_NV04, true},  {4, MODE_IB, false},
    {4, MODE_IB, true},    {5, MODE_NV04, false}, {5, MODE_NV04, true},  {5, MODE_IB, false},
    {5, MODE_IB, true},
};

/* W1, W2, W3, W4, W5, W6, W7, W8, W9, W10, W11, W12, W14: the words to try, most of them at level 3 in
 * NV04-style with SLI on; the row of level 0 has SLI off, as SLI is refused there. Last comes a jump that the
 * upper half would make an SLI conditional. */
static const struct row {
    struct setting setting;
    uint32_t word;
    uint32_t next;
    struct reading reading;
} numbers[] = {
    {{3, MODE_NV04, true}, 0x00000000, 0, {READING_INCREASING, {0, 0, 0}, WHY_NONE}},
    {{3, MODE_NV04, true}, 0x00082180, 0, {READING_INCREASING, {2, 1, 0x0180}, WHY_NONE}},
    {{3, MODE_NV04, true}, 0x400cfffc, 0, {READING_NON_INCREASING, {3, 7, 0x1ffc}, WHY_NONE}},
    {{3, MODE_NV04, true}, 0x00010050, 0, {READING_SLI, {5, 0, 0}, WHY_NONE}},
    {{3, MODE_NV04, true}, 0x00020000, 0, {READING_RETURN, {0, 0, 0}, WHY_NONE}},
    {{4, MODE_IB, true}, 0x00034100, 0xab000009, {READING_LONG, {2, 0x0100, 9}, WHY_NONE}},
    {{3, MODE_NV04, true}, 0x3ffffffc, 0, {READING_OLD_JUMP, {0x1ffffffc, 0, 0}, WHY_NONE}},
    {{3, MODE_NV04, true}, 0x00002002, 0, {READING_CALL, {0x2000, 0, 0}, WHY_NONE}},
    {{0, MODE_NV04, false}, 0x400cfffc, 0, {READING_RESERVED, {0, 0, 0}, WHY_LEVEL}},
    {{3, MODE_NV04, false}, 0x00010050, 0, {READING_RESERVED, {0, 0, 0}, WHY_SLI}},
    {{3, MODE_NV04, true}, 0x00020004, 0, {READING_RESERVED, {0, 0, 0}, WHY_FORM}},
    {{3, MODE_NV04, true}, 0x00000003, 0, {READING_RESERVED, {0, 0, 0}, WHY_FORM}},
    {{2, MODE_NV04, false}, 0x00010001, 0, {READING_JUMP, {0x00010000, 0, 0}, WHY_NONE}},
};

static void test_numbers(void)
{
    for (size_t i = 0; i < sizeof numbers / sizeof numbers[0]; i++) {
        const struct row *row = &numbers[i];
        struct reading read = model_read(row->setting, row->word, row->next);

        check(same(read, row->reading), "the words to try", row->setting, row->word, row->next);
    }
}

enum { NV04_LEVELS = 6, IB_LEVELS = 2 };

/* W20, W21, W22, W23, W24: the whys that the rules give of their words to try, with SLI off: at levels 0 to 5
 * in NV04-style, then at levels 4 and 5 in IB mode; 0 where the word is a command. The last has the upper
 * half of an SLI conditional, and is a jump all the same. */
static const struct why_row {
    uint32_t word;
    uint32_t nv04[NV04_LEVELS];
    uint32_t ib[IB_LEVELS];
} whys[] = {
    {0x00000000, {0, 0, 0, 0, 0, 0}, {0, 0}}, {0x00082180, {0, 0, 0, 0, 0, 0}, {0, 0}},
    {0x00000003, {1, 1, 1, 1, 1, 1}, {1, 1}}, {0x00020004, {1, 1, 1, 1, 1, 1}, {1, 1}},
    {0x400cfffc, {2, 0, 0, 0, 0, 0}, {0, 0}}, {0x00020000, {2, 2, 0, 0, 0, 0}, {3, 3}},
    {0x00002002, {2, 2, 0, 0, 0, 0}, {3, 3}}, {0x00010050, {2, 2, 2, 4, 4, 4}, {4, 4}},
    {0x00034100, {3, 3, 3, 3, 3, 3}, {0, 0}}, {0x3ffffffc, {0, 0, 0, 0, 0, 0}, {3, 3}},
    {0x00010001, {2, 2, 0, 0, 0, 0}, {3, 3}},
};

/* W24: a word has this why, and is reserved exactly if that is one. */
static void has_why(const char *sentence, struct setting setting, uint32_t word, uint32_t why)
{
    struct reading read = model_read(setting, word, 7);

    check(read.why == why, sentence, setting, word, why);
    check((read.number == READING_RESERVED) == (why != WHY_NONE), sentence, setting, word, why);
}

static void test_why_rows(void)
{
    for (size_t i = 0; i < sizeof whys / sizeof whys[0]; i++) {
        for (uint32_t level = 0; level < NV04_LEVELS; level++)
            has_why("the whys of the words to try", (struct setting){level, MODE_NV04, false}, whys[i].word,
                    whys[i].nv04[level]);
        for (uint32_t level = 4; level < 4 + IB_LEVELS; level++)
            has_why("the whys of the words to try", (struct setting){level, MODE_IB, false}, whys[i].word,
                    whys[i].ib[level - 4]);
    }
}

/* W21, W23, W24: of the two whys that an SLI conditional with SLI off can have below level 3, it says LEVEL;
 * from there on, in either mode, SLI. */
static void test_why_order(void)
{
    for (uint32_t mask = 0; mask < 4096; mask++) {
        uint32_t word = 0x00010000 | mask << 4;

        for (uint32_t level = 0; level < 3; level++)
            has_why("LEVEL comes before SLI", (struct setting){level, MODE_NV04, false}, word, WHY_LEVEL);
        for (uint32_t level = 3; level <= 5; level++) {
            has_why("SLI is off", (struct setting){level, MODE_NV04, false}, word, WHY_SLI);
            has_why("SLI is on", (struct setting){level, MODE_NV04, true}, word, WHY_NONE);
        }
        for (uint32_t level = 4; level <= 5; level++) {
            has_why("SLI is off in IB mode", (struct setting){level, MODE_IB, false}, word, WHY_SLI);
            has_why("SLI is on in IB mode", (struct setting){level, MODE_IB, true}, word, WHY_NONE);
        }
    }
}

/* W5, W21, W22: every long form is wrong by its mode alone, also at levels that have no IB mode. */
static void test_why_long(void)
{
    for (uint32_t fields = 0; fields < 0x10000; fields += 4) {
        uint32_t word = 0x00030000 | fields;

        for (uint32_t level = 0; level <= 5; level++)
            has_why("a long form in NV04-style", (struct setting){level, MODE_NV04, false}, word, WHY_MODE);
        for (uint32_t level = 3; level <= 5; level++)
            has_why("with SLI on too", (struct setting){level, MODE_NV04, true}, word, WHY_MODE);
        for (uint32_t level = 4; level <= 5; level++)
            has_why("a long form in IB mode", (struct setting){level, MODE_IB, false}, word, WHY_NONE);
    }
}

/* W11: what document 004 says in brackets after each pattern, read as the rules read it. */
static bool pattern_usable(struct setting setting, uint32_t number)
{
    static const uint32_t first_level[PATTERNS] = {0, 1, 3, 2, 4, 0, 2, 2};
    bool flow = number == READING_RETURN || number >= READING_OLD_JUMP;

    if (setting.level < first_level[number - 1])
        return false;
    if (number == READING_SLI)
        return setting.sli;
    if (number == READING_LONG)
        return setting.mode == MODE_IB;
    return !flow || setting.mode == MODE_NV04;
}

/* W9, W14: the values that a word has by the pattern of its form. */
static struct reading pattern_reading(uint32_t number, uint32_t word, uint32_t next)
{
    const char *pattern = patterns[number - 1];
    uint32_t count = gather(pattern_bits(pattern, 'C'), word);
    uint32_t subchannel = gather(pattern_bits(pattern, 'S'), word);
    uint32_t method = gather(pattern_bits(pattern, 'M'), word);
    uint32_t target = gather(pattern_bits(pattern, 'J'), word);

    if (number == READING_SLI)
        return (struct reading){number, {method, 0, 0}, WHY_NONE};
    if (number == READING_LONG)
        return (struct reading){number, {subchannel, 4 * method, next % (1U << 24)}, WHY_NONE};
    if (number == READING_INCREASING || number == READING_NON_INCREASING)
        return (struct reading){number, {count, subchannel, 4 * method}, WHY_NONE};
    return (struct reading){number, {4 * target, 0, 0}, WHY_NONE};
}

enum { NO_PATTERN = 0, NO_MODE = 2 };

/* W10, W20: the number of the pattern that a word has, or NO_PATTERN. */
static uint32_t pattern_of(uint32_t word)
{
    uint32_t found = NO_PATTERN;
    unsigned matches = 0;

    for (uint32_t number = 1; number <= PATTERNS; number++) {
        uint32_t ones = pattern_bits(patterns[number - 1], '1');
        uint32_t zeros = pattern_bits(patterns[number - 1], '0');

        if ((word & ones) != ones || (word & zeros) != 0)
            continue;
        matches++;
        found = number;
    }
    check(matches <= 1, "no word has two forms", accepted[0], word, found);
    return found;
}

/* W20, W21, W22, W23: whether a why applies to a pattern at a setting, whatever others do. */
static bool why_applies(uint32_t why, struct setting setting, uint32_t number)
{
    static const uint32_t levels[PATTERNS + 1] = {0, 0, 1, 3, 2, 0, 0, 2, 2};
    static const uint32_t lacking[PATTERNS + 1] = {NO_MODE,   NO_MODE, NO_MODE, NO_MODE, MODE_IB,
                                                   MODE_NV04, MODE_IB, MODE_IB, MODE_IB};

    switch (why) {
    case WHY_FORM:
        return number == NO_PATTERN;
    case WHY_LEVEL:
        return setting.level < levels[number];
    case WHY_MODE:
        return setting.mode == lacking[number];
    default:
        return number == READING_SLI && !setting.sli;
    }
}

/* W24: the first of them, or none. Two apply to one family of words alone. */
static uint32_t first_why(struct setting setting, uint32_t number)
{
    bool is_family = number == READING_SLI && setting.level < 3 && !setting.sli;
    uint32_t first = WHY_NONE;
    unsigned applying = 0;

    for (uint32_t why = WHY_SLI; why >= WHY_FORM; why--)
        if (why_applies(why, setting, number)) {
            applying++;
            first = why;
        }
    check(applying <= (is_family ? 2 : 1), "which family has two whys", setting, number, applying);
    check(!is_family || first == WHY_LEVEL, "which of the two comes first", setting, number, first);
    return first;
}

/* W10, W11, W12, W24: the reading by the patterns, at a setting that is not refused. What is reserved goes by
 * the patterns alone, and has to have a why; nothing else may. */
static struct reading read_by_patterns(struct setting setting, uint32_t word, uint32_t next)
{
    uint32_t number = pattern_of(word);
    uint32_t why = first_why(setting, number);
    bool is_command = number != NO_PATTERN && pattern_usable(setting, number);

    check(is_command == (why == WHY_NONE), "reserved words have a why, and no others", setting, word, why);
    return is_command ? pattern_reading(number, word, next)
                      : (struct reading){READING_RESERVED, {0, 0, 0}, why};
}

/* R12, R31, X1, X2, X3, X5, X6: a command that was read is written as the word that it was, a count word
 * without its upper 8 bits. What is reserved isn't written, and is no form to the writer, whatever why it
 * has. */
static void test_write_back(struct setting setting, uint32_t word, uint32_t next)
{
    uint32_t out[3] = {~word, ~next, 7};
    struct reading read = model_read(setting, word, next);
    struct written written = model_write(setting, read, out, 3);
    bool is_long = read.number == READING_LONG;

    check(same(read, read_by_patterns(setting, word, next)), "document 004's patterns", setting, word, next);
    if (read.number == READING_RESERVED) {
        check(written.refusal == REFUSAL_FORM && written.count == 0, "reserved is FORM", setting, word,
              next);
        check(written.why == WHY_FORM, "reserved is no form", setting, word, read.why);
        check(out[0] == ~word && out[1] == ~next && out[2] == 7, "FORM writes nothing", setting, word, next);
        return;
    }
    check(written.refusal == REFUSAL_NONE, "what is read is written", setting, word, next);
    check(written.why == WHY_NONE, "what is written has no why", setting, word, next);
    check(written.count == (is_long ? 2 : 1), "words written", setting, word, next);
    check(out[0] == word, "the word is written back", setting, word, next);
    check(out[1] == (is_long ? (next & 0x00ffffff) : ~next), "the count word", setting, word, next);
    check(out[2] == 7, "later words stay", setting, word, next);
}

/* W11, W12, W20, W21, W22, W23, W24: words of every form, and each with one bit turned over, at every
 * setting. */
static void test_forms(struct draw *draw)
{
    for (unsigned i = 0; i < 2000 * PATTERNS; i++) {
        uint32_t word = draw_form(draw, patterns[i % PATTERNS]);
        uint32_t other = word ^ UINT32_C(1) << draw_below(draw, 32);
        uint32_t next = draw_number(draw);

        for (unsigned j = 0; j < ACCEPTED; j++) {
            test_write_back(accepted[j], word, next);
            test_write_back(accepted[j], other, next);
        }
    }
}

/* W1, W2, W3, W4, W5, W6, W7, W8, W11, W12, X3: drawn words by the model and by the patterns. */
static void test_words(struct draw *draw)
{
    for (unsigned i = 0; i < 20000; i++) {
        uint32_t word = draw_word(draw);
        uint32_t next = draw_number(draw);

        for (unsigned j = 0; j < ACCEPTED; j++)
            test_write_back(accepted[j], word, next);
    }
    for (unsigned i = 0; i < 300000; i++) {
        uint32_t word = draw_word(draw);
        uint32_t next = draw_number(draw);

        test_write_back(draw_setting(draw), word, next);
    }
}

static bool is_accepted(struct setting setting)
{
    for (unsigned i = 0; i < ACCEPTED; i++)
        if (accepted[i].level == setting.level && accepted[i].mode == setting.mode &&
            accepted[i].sli == setting.sli)
            return true;
    return false;
}

/* The writer refuses so, and with this why. */
static bool same_written(struct written written, uint32_t refusal, uint32_t why)
{
    return written.refusal == refusal && written.count == 0 && written.why == why;
}

/* R22, R23, R24, W13, W24, X6: a refused setting is refused alike by reading, reading at a place and writing,
 * even where the size, a field, the form and the room are wrong as well, and without a why. */
static void test_refused_setting(struct setting setting)
{
    struct reading wrong = {READING_LONG, {8, 3, UINT32_MAX}, WHY_NONE};
    struct reading none = {READING_RESERVED, {0, 0, 0}, WHY_LEVEL};
    struct reading read = model_read(setting, 0, 0);
    struct reading read_at = model_read_at(setting, NULL, SIZE_LIMIT + 1, 0);

    check(read.number == READING_REFUSED && read.value[0] != 0, "refused settings", setting, 0, 0);
    check(same(read_at, read), "SIZE comes last", setting, 0, 0);
    check(same(model_read(setting, 3, 0), read), "where no word has a why", setting, 3, 0);
    check(same_written(model_write(setting, wrong, NULL, 0), read.value[0], WHY_NONE), "settings come first",
          setting, 0, 0);
    check(same_written(model_write(setting, none, NULL, 0), read.value[0], WHY_NONE), "before FORM", setting,
          0, 0);
}

/* R1, R2, R4: every setting of levels 0 to 7 and modes 0 to 3. */
static void test_settings(void)
{
    for (uint32_t i = 0; i < 64; i++) {
        struct setting setting = {i / 8, i / 2 % 4, i % 2 == 1};

        if (is_accepted(setting))
            check(model_read(setting, 0, 0).number == READING_INCREASING, "accepted settings", setting, 0,
                  0);
        else
            test_refused_setting(setting);
    }
}

/* R10, R11, R12, R21, R24, X4, X5, X6: the writer's order. Each row has no room, and most are wrong in more
 * than what they answer; FORM alone says why, and whys that are handed in are not looked at. */
static void test_orders(void)
{
    static const struct {
        struct setting setting;
        struct reading command;
        uint32_t refusal;
        uint32_t why;
    } rows[] = {
        {{6, 2, true}, {READING_SLI, {0x1000, 0, 0}, 0}, REFUSAL_LEVEL, 0},
        {{256, MODE_NV04, false}, {READING_RETURN, {0, 0, 0}, 0}, REFUSAL_LEVEL, 0},
        {{UINT32_MAX, MODE_IB, true}, {READING_RETURN, {0, 0, 0}, 0}, REFUSAL_LEVEL, 0},
        {{2, 2, true}, {READING_SLI, {0x1000, 0, 0}, 0}, REFUSAL_MODE, 0},
        {{5, 256, false}, {READING_SLI, {0x1000, 0, 0}, 0}, REFUSAL_MODE, 0},
        {{2, MODE_IB, true}, {READING_LONG, {8, 0, 0}, 0}, REFUSAL_MODE, 0},
        {{3, MODE_IB, false}, {READING_LONG, {8, 0, 0}, 0}, REFUSAL_MODE, 0},
        {{2, MODE_NV04, true}, {READING_SLI, {0x1000, 0, 0}, 0}, REFUSAL_SLI, 0},
        {{2, MODE_NV04, true}, {READING_RESERVED, {0, 0, 0}, WHY_FORM}, REFUSAL_SLI, 0},
        {{3, MODE_NV04, false}, {READING_SLI, {0x1000, 0, 0}, 0}, REFUSAL_FIELD, 0},
        {{2, MODE_NV04, false}, {READING_SLI, {0x1000, 0, 0}, 0}, REFUSAL_FIELD, 0},
        {{0, MODE_NV04, false}, {READING_NON_INCREASING, {0, 8, 0}, 0}, REFUSAL_FIELD, 0},
        {{1, MODE_NV04, false}, {READING_JUMP, {2, 0, 0}, 0}, REFUSAL_FIELD, 0},
        {{4, MODE_NV04, false}, {READING_LONG, {0, 0, 0x1000000}, 0}, REFUSAL_FIELD, 0},
        {{4, MODE_IB, false}, {READING_OLD_JUMP, {0x20000000, 0, 0}, 0}, REFUSAL_FIELD, 0},
        {{0, MODE_NV04, false}, {READING_INCREASING, {0x800, 0, 0}, 0}, REFUSAL_FIELD, 0},
        {{0, MODE_NV04, false}, {READING_INCREASING, {0, 8, 0}, 0}, REFUSAL_FIELD, 0},
        {{0, MODE_NV04, false}, {READING_INCREASING, {0, 0, 0x2000}, 0}, REFUSAL_FIELD, 0},
        {{0, MODE_NV04, false}, {READING_NON_INCREASING, {0, 7, 0}, 0}, REFUSAL_FORM, WHY_LEVEL},
        {{1, MODE_NV04, false}, {READING_JUMP, {4, 0, 0}, 0}, REFUSAL_FORM, WHY_LEVEL},
        {{2, MODE_NV04, false}, {READING_SLI, {0xfff, 0, 0}, 0}, REFUSAL_FORM, WHY_LEVEL},
        {{3, MODE_NV04, false}, {READING_SLI, {0xfff, 0, 0}, 0}, REFUSAL_FORM, WHY_SLI},
        {{4, MODE_IB, false}, {READING_SLI, {0, 0, 0}, 0}, REFUSAL_FORM, WHY_SLI},
        {{0, MODE_NV04, false}, {READING_LONG, {7, 0x1ffc, 0xffffff}, 0}, REFUSAL_FORM, WHY_MODE},
        {{5, MODE_NV04, true}, {READING_LONG, {0, 0, 0}, 0}, REFUSAL_FORM, WHY_MODE},
        {{5, MODE_IB, true}, {READING_RETURN, {0, 0, 0}, 0}, REFUSAL_FORM, WHY_MODE},
        {{4, MODE_IB, false}, {READING_OLD_JUMP, {0x1ffffffc, 0, 0}, 0}, REFUSAL_FORM, WHY_MODE},
        {{5, MODE_IB, true}, {READING_RESERVED, {0, 0, 0}, WHY_FORM}, REFUSAL_FORM, WHY_FORM},
        {{0, MODE_NV04, false}, {READING_RESERVED, {0, 0, 0}, WHY_LEVEL}, REFUSAL_FORM, WHY_FORM},
        {{5, MODE_IB, false}, {READING_RESERVED, {0, 0, 0}, WHY_MODE}, REFUSAL_FORM, WHY_FORM},
        {{3, MODE_NV04, false}, {READING_RESERVED, {0, 0, 0}, WHY_SLI}, REFUSAL_FORM, WHY_FORM},
        {{5, MODE_NV04, true}, {READING_REFUSED, {REFUSAL_LEVEL, 0, 0}, 0}, REFUSAL_FORM, WHY_FORM},
        {{0, MODE_NV04, false}, {READING_REFUSED, {REFUSAL_SLI, 0, 0}, 0}, REFUSAL_FORM, WHY_FORM},
        {{0, MODE_NV04, false}, {READING_INCREASING, {0x7ff, 7, 0x1ffc}, 0}, REFUSAL_ROOM, 0},
        {{4, MODE_IB, false}, {READING_LONG, {7, 0x1ffc, 0xffffff}, 0}, REFUSAL_ROOM, 0},
    };

    for (size_t i = 0; i < sizeof rows / sizeof rows[0]; i++) {
        struct written written = model_write(rows[i].setting, rows[i].command, NULL, 0);

        check(same_written(written, rows[i].refusal, rows[i].why), "the writer's order", rows[i].setting,
              rows[i].command.number, rows[i].command.value[0]);
    }
}

/* W24, X6: a command of a form whose fields fit, or don't: what FORM says of the one is what the reader says
 * of the word that it would be; of the other FIELD is told, without a why. */
static void test_write_why(struct setting setting, uint32_t number)
{
    static const uint32_t wide[PATTERNS][3] = {{0x800, 0, 0}, {0, 8, 0}, {0x1000, 0, 0}, {0, 0, 0},
                                               {0, 2, 0},     {1, 0, 0}, {2, 0, 0},      {3, 0, 0}};
    struct reading command = {number, {0, 0, 0}, WHY_NONE};
    uint32_t why = model_read(setting, pattern_bits(patterns[number - 1], '1'), 0).why;
    uint32_t out[2];

    check(why == first_why(setting, number), "the why of a form", setting, number, why);
    if (why != WHY_NONE)
        check(same_written(model_write(setting, command, out, 2), REFUSAL_FORM, why),
              "the writer says what the reader says", setting, number, why);
    if (number == READING_RETURN)
        return;
    memcpy(command.value, wide[number - 1], sizeof command.value);
    check(same_written(model_write(setting, command, out, 2), REFUSAL_FIELD, WHY_NONE),
          "FIELD has no why, though FORM would have one", setting, number, why);
}

/* X5, X6: what is no command, with any why that it can have. */
static void test_write_none(struct setting setting)
{
    uint32_t out[2];

    for (uint32_t why = WHY_FORM; why <= WHY_SLI; why++)
        check(same_written(model_write(setting, (struct reading){READING_RESERVED, {0, 0, 0}, why}, out, 2),
                           REFUSAL_FORM, WHY_FORM),
              "a why that is handed in is not handed on", setting, READING_RESERVED, why);
    for (uint32_t refusal = REFUSAL_LEVEL; refusal < REFUSAL_COUNT; refusal++)
        check(
            same_written(model_write(setting, (struct reading){READING_REFUSED, {refusal, 0, 0}, 0}, out, 2),
                         REFUSAL_FORM, WHY_FORM),
            "a refusal that is handed in is no form", setting, READING_REFUSED, refusal);
}

static void test_write_whys(void)
{
    for (unsigned i = 0; i < ACCEPTED; i++) {
        for (uint32_t number = 1; number <= PATTERNS; number++)
            test_write_why(accepted[i], number);
        test_write_none(accepted[i]);
    }
}

/* A command that may be read at a setting, one in three with a value changed, so that numbers too
 * wide and numbers that are no multiple of 4 come as well. Values that it doesn't use stay 0. */
static struct reading draw_command(struct draw *draw, struct setting setting)
{
    static const uint32_t values[] = {0, 3, 3, 1, 0, 3, 1, 1, 1, 0};
    uint32_t word = draw_word(draw);
    struct reading command = model_read(setting, word, draw_number(draw));
    uint32_t used = values[command.number];

    if (used != 0 && draw_below(draw, 3) == 0) {
        uint32_t *value = &command.value[draw_below(draw, used)];
        uint32_t any = draw_number(draw);
        uint32_t shift = draw_below(draw, 64);

        *value = shift < 32 ? any >> shift : *value * 2;
    }
    return command;
}

/* R11, R31, X1, X2, X3: a command that was written is the one that is read. A refusal leaves the output, ROOM
 * too. */
static void test_read_back(struct draw *draw, struct setting setting)
{
    struct reading command = draw_command(draw, setting);
    uint32_t wanted = command.number == READING_LONG ? 2 : 1;
    uint32_t room = draw_below(draw, 4);
    uint32_t out[3] = {11, 12, 13};
    struct written written = model_write(setting, command, out, room);

    if (written.refusal != REFUSAL_NONE) {
        check(written.count == 0, "a refusal counts no words", setting, command.number, room);
        check((written.why != WHY_NONE) == (written.refusal == REFUSAL_FORM), "FORM alone has a why", setting,
              command.number, room);
        check(out[0] == 11 && out[1] == 12 && out[2] == 13, "a refusal writes nothing", setting,
              command.number, room);
        check(written.refusal != REFUSAL_ROOM || room < wanted, "ROOM has a cause", setting, command.number,
              room);
        return;
    }
    check(written.count == wanted && room >= wanted, "room suffices", setting, command.number, room);
    check(same(model_read(setting, out[0], out[1]), command), "read-back", setting, out[0], out[1]);
    check(out[2] == 13 && (wanted == 2 || out[1] == 12), "later words stay", setting, out[0], out[1]);
}

/* W16, W24: a reserved word at a place has its own why, and past the words there is none. */
static void test_why_places(void)
{
    static const uint32_t words[] = {0x00000003, 0x00034100, 0x00010050, 0x400cfffc};
    static const uint32_t at_0[] = {WHY_FORM, WHY_MODE, WHY_LEVEL, WHY_LEVEL, WHY_NONE};
    static const uint32_t at_3[] = {WHY_FORM, WHY_MODE, WHY_SLI, WHY_NONE, WHY_NONE};

    for (uint32_t place = 0; place <= 4; place++) {
        struct setting low = {0, MODE_NV04, false};
        struct setting high = {3, MODE_NV04, false};

        check(model_read_at(low, words, 4, place).why == at_0[place], "whys at places", low, place, 0);
        check(model_read_at(high, words, 4, place).why == at_3[place], "whys at places", high, place, 0);
    }
}

/* R8, R23, W14, W16: the last word has no next word, and a place past the words isn't cut to 32 bits. */
static void test_places(void)
{
    static uint32_t words[SIZE_LIMIT + 1] = {0x00034100, 0xff000005, 0x00034100, 9};
    struct setting ib = {4, MODE_IB, false};
    uint64_t past[] = {SIZE_LIMIT, UINT64_C(1) << 32, UINT64_C(1) << 63, UINT64_MAX};

    check(model_read_at(ib, words, 2, 0).value[2] == 5, "the next word", ib, 2, 0);
    check(model_read_at(ib, words, 3, 2).number == READING_LONG, "the last word", ib, 3, 2);
    check(model_read_at(ib, words, 3, 2).value[2] == 0, "no next word", ib, 3, 2);
    check(model_read_at(ib, words, 4, 2).value[2] == 9, "the next word", ib, 4, 2);
    check(model_read_at(ib, NULL, 0, 0).number == READING_PAST, "no words", ib, 0, 0);
    check(model_read_at(ib, words, SIZE_LIMIT, SIZE_LIMIT - 1).number == READING_INCREASING,
          "the last place", ib, SIZE_LIMIT, SIZE_LIMIT - 1);
    for (unsigned i = 0; i < 4; i++) {
        check(model_read_at(ib, words, SIZE_LIMIT, past[i]).number == READING_PAST, "past", ib, SIZE_LIMIT,
              i);
        check(model_read_at(ib, words, SIZE_LIMIT + 1, past[i]).value[0] == REFUSAL_SIZE, "SIZE", ib,
              SIZE_LIMIT + 1, i);
    }
}

/* W18: by the count of methods below 0x100 at each level: 1, then 1 more, 4 more, 1 more, none more, 6 more.
 * From 0x100, number 0x40, all are there: also those whose byte number, cut to 32 bits, one might lack. */
static void test_present(void)
{
    static const unsigned present[] = {1, 2, 6, 7, 7, 13, 13};
    static const uint32_t larger[] = {0x40, 0x50, 0x4001, 0x3fffffff, 0x40000001, 0x80000005, UINT32_MAX};

    for (uint32_t level = 0; level <= 6; level++) {
        struct setting setting = {level, MODE_NV04, false};
        unsigned count = 0;

        for (uint32_t number = 0; number < 0x40; number++) {
            bool here = model_present(level, number);

            count += here;
            check(level == 0 || here || !model_present(level - 1, number), "later levels have all", setting,
                  number, 0);
        }
        check(count == present[level], "count of methods present", setting, count, present[level]);
        for (unsigned i = 0; i < sizeof larger / sizeof larger[0]; i++)
            check(model_present(level, larger[i]), "0x100 up", setting, larger[i], 0);
    }
}

int main(void)
{
    struct draw draw = {0x0004};

    test_numbers();
    test_why_rows();
    test_why_order();
    test_why_long();
    test_settings();
    test_orders();
    test_write_whys();
    test_forms(&draw);
    test_words(&draw);
    for (unsigned i = 0; i < 20000; i++)
        for (unsigned j = 0; j < ACCEPTED; j++)
            test_read_back(&draw, accepted[j]);
    test_places();
    test_why_places();
    test_present();
    printf("word model: %" PRIu64 " checks\n", checks);
    return 0;
}

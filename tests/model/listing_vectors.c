/* Writes the vectors of the listing reader to standard output: questions and the model's answers, as
 * little-endian words. A record starts with its kind:
 *   1 LIST   level, mode, SLI, place to start from, how many words (at most 256), the words
 *            | how many answers (at most 300), the answers
 *   2 LARGE  level, mode, SLI, place to start from, how many words (at most 1,048,580), the word that all of
 *            them are | one answer
 * An answer has seven words:
 *   1 command, 2 past the last word, 3 at a reserved word, 4 at a command short of its words, 5 refused
 *   the reading's number, 0 without a command: 1 increasing, 2 non-increasing, 3 SLI conditional, 4 return,
 *     5 long, 6 old jump, 7 jump, 8 call
 *   its three values, those not used 0; those of a refusal are its number and 0; an end has none
 *   the why of a reserved word, 1 to 4; 0 of any other answer
 *   the place after it
 * Methods and targets are byte numbers. The answers of a LIST go on to an end or a refusal, which is asked
 * for two times more. With --counts it prints how many records there are of each kind, and how many per
 * answer, instead. */
#include "listing.h"
#include "pattern.h"
#include "vectors.h"

/* What is counted: the kinds of record, then what --counts tells of both. */
enum { LIST = 1, LARGE = 2, END = 3, SHORT = 4, FORM = 5, REFUSED = 6, WHY = 7, END_WHY = 8 };

enum { MOST_WORDS = 256, MOST_ANSWERS = 300, ANSWER_WORDS = 7, LARGE_ROOM = SIZE_LIMIT + 4 };

/* ---- Answers ---- */

/* A list, and the place to start from. */
static struct {
    struct setting setting;
    uint32_t start;
    uint32_t count;
    uint32_t words[LARGE_ROOM];
} given;

/* The form whose words run short, 0 for a long form that lacks its count word. */
static uint32_t short_form(uint64_t place)
{
    uint32_t number = model_read(given.setting, given.words[place], 0).number;

    return number == READING_LONG && place + 1 == given.count ? 0 : number;
}

/* Counts an answer that may be an end, by itself and by what it is about. */
static void count_answer(struct vectors *vectors, struct listed listed, uint64_t place, bool is_first)
{
    switch (listed.answer) {
    case LISTED_COMMAND:
        count_one(vectors, FORM, listed.reading.number);
        return;
    case LISTED_REFUSED:
        count_one(vectors, REFUSED, listed.reading.value[0]);
        return;
    case LISTED_SHORT:
        count_one(vectors, SHORT, short_form(place));
        break;
    case LISTED_RESERVED:
        count_one(vectors, is_first ? WHY : END_WHY, listed.reading.why);
        break;
    default:
        break;
    }
    if (!is_first)
        count_one(vectors, END, listed.answer);
}

/* Asks once and adds the answer to a record; with it go the places before and after. */
static struct listed add_answer(uint32_t *record, uint64_t *place)
{
    struct listed listed = model_listing_next(given.setting, given.words, given.count, place);
    const uint32_t *value = listed.reading.value;
    uint32_t answer[ANSWER_WORDS] = {listed.answer, listed.reading.number, value[0],        value[1],
                                     value[2],      listed.reading.why,    (uint32_t)*place};

    memcpy(record, answer, sizeof answer);
    return listed;
}

/* The setting and the place, and how many words there are. */
static size_t add_head(uint32_t *record)
{
    uint32_t head[] = {given.setting.level, given.setting.mode, given.setting.sli, given.start, given.count};

    memcpy(record, head, sizeof head);
    return sizeof head / sizeof head[0];
}

/* ---- LIST ---- */

/* K2, K4: the answers to an end or a refusal, which is asked for two times more. */
static void put_list(struct vectors *vectors)
{
    static uint32_t record[5 + MOST_WORDS + 1 + ANSWER_WORDS * MOST_ANSWERS];
    size_t count = add_head(record);
    uint64_t place = given.start;
    struct listed listed;
    uint32_t *answers;

    memcpy(record + count, given.words, given.count * sizeof record[0]);
    count += given.count;
    answers = record + count++;
    *answers = 0;
    do {
        listed = add_answer(record + count, &place);
        count_answer(vectors, listed, place, *answers == 0);
        count += ANSWER_WORDS;
        ++*answers;
    } while (listed.answer == LISTED_COMMAND);
    for (unsigned i = 0; i < 2; i++) {
        add_answer(record + count, &place);
        count += ANSWER_WORDS;
        ++*answers;
    }
    put_record(vectors, LIST, record, count, listed.answer);
}

/* ---- Words ---- */

static void give_nothing(struct setting setting, uint32_t start)
{
    given.setting = setting;
    given.start = start;
    given.count = 0;
}

/* One word more, where there is room. */
static void give_word(uint32_t word)
{
    if (given.count < MOST_WORDS)
        given.words[given.count++] = word;
}

/* Parameters look like commands, so that a reader that takes them for such gives others. */
static void give_parameters(struct draw *draw, uint32_t count)
{
    for (uint32_t i = 0; i < count; i++)
        give_word(draw_word(draw));
}

/* Mostly few. */
static uint32_t draw_parameters(struct draw *draw)
{
    return draw_below(draw, draw_once_in(draw, 12) ? 60 : 6);
}

/* W15: a command of a form with all its words, whether or not the setting has it. */
static void give_command(struct draw *draw, uint32_t number)
{
    uint32_t word = draw_form(draw, patterns[number - 1]);
    uint32_t field = pattern_bits(patterns[number - 1], 'C');
    uint32_t parameters = draw_parameters(draw);

    switch (number) {
    case READING_INCREASING:
    case READING_NON_INCREASING:
        give_word((word & ~field) | spread(field, parameters));
        give_parameters(draw, parameters);
        break;
    case READING_LONG:
        give_word(word);
        /* W14: bits above the count. */
        give_word((draw_number(draw) & 0xff000000) | parameters);
        give_parameters(draw, parameters);
        break;
    default:
        give_word(word);
        break;
    }
}

/* Whether a setting that isn't refused has a form: its readings are of that number then. */
static bool has_form(struct setting setting, uint32_t number)
{
    return model_read(setting, pattern_bits(patterns[number - 1], '1'), 0).number == number;
}

/* Commands that the setting has, each with all its words. */
static void give_commands(struct draw *draw, uint32_t commands)
{
    for (uint32_t i = 0; i < commands; i++) {
        uint32_t number;

        do
            number = 1 + draw_below(draw, PATTERNS);
        while (!has_form(given.setting, number));
        give_command(draw, number);
    }
}

/* A word that is reserved at the setting, for any why that it has. */
static void give_reserved(struct draw *draw)
{
    give_word(draw_reserved(draw, given.setting, draw_why(draw, given.setting)));
}

/* ---- Settings ---- */

enum { GRID = 42, SETTINGS = 66, ACCEPTED = 13 };

/* Setting i of SETTINGS. The first GRID are levels 0 to 6 with modes 0 to 2 and SLI off and on; then come
 * numbers that a narrower type would cut to good ones. */
static struct setting setting_at(unsigned i)
{
    static const uint32_t pairs[][2] = {
        {255, 0}, {256, 0}, {UINT32_MAX, 0}, {256, 1},        {0, 256},   {5, 256},
        {4, 257}, {5, 255}, {0, UINT32_MAX}, {5, UINT32_MAX}, {256, 256}, {UINT32_MAX, UINT32_MAX},
    };
    unsigned pair = (i - GRID) / 2;

    if (i < GRID)
        return (struct setting){i / 6, i / 2 % 3, i % 2 == 1};
    return (struct setting){pairs[pair][0], pairs[pair][1], i % 2 == 1};
}

/* Setting i of those that aren't refused. */
static struct setting accepted_at(unsigned i)
{
    static const struct setting settings[ACCEPTED] = {
        {0, MODE_NV04, false}, {1, MODE_NV04, false}, {2, MODE_NV04, false}, {3, MODE_NV04, false},
        {3, MODE_NV04, true},  {4, MODE_NV04, false}, {4, MODE_NV04, true},  {4, MODE_IB, false},
        {4, MODE_IB, true},    {5, MODE_NV04, false}, {5, MODE_NV04, true},  {5, MODE_IB, false},
        {5, MODE_IB, true},
    };

    return settings[i];
}

/* R1, R2, R4: one of them that is changed so that LEVEL, MODE or SLI refuses it, whatever else does. */
static struct setting draw_refused(struct draw *draw)
{
    struct setting setting = draw_setting(draw);
    uint32_t large = draw_once_in(draw, 2) ? draw_below(draw, 4) : draw_number(draw) / 2;

    switch (draw_below(draw, 4)) {
    case 0:
        setting.level = 6 + large;
        break;
    case 1:
        setting.mode = 2 + large;
        break;
    case 2:
        setting.level = draw_below(draw, 4);
        setting.mode = MODE_IB;
        break;
    default:
        setting = (struct setting){draw_below(draw, 3), MODE_NV04, true};
        break;
    }
    return setting;
}

/* A place at the end of the words, or beyond. */
static uint32_t draw_beyond(struct draw *draw)
{
    uint32_t near = given.count + 1 + draw_below(draw, 300);
    uint32_t far = draw_number(draw) | 0x10000;
    uint32_t places[] = {given.count, given.count + 1, near,       SIZE_LIMIT,
                         far,         0x80000000,      0xfffffffe, UINT32_MAX};

    return draw_among(draw, places, sizeof places / sizeof places[0]);
}

/* R23, K3, K4: every setting, with no words, with a run and its parameters, and with drawn ones. */
static void put_settings(struct vectors *vectors)
{
    struct draw *draw = &vectors->draw;

    for (unsigned i = 0; i < SETTINGS; i++) {
        give_nothing(setting_at(i), 0);
        put_list(vectors);
        given.start = draw_beyond(draw);
        put_list(vectors);
        give_nothing(setting_at(i), 0);
        give_word(0x00082180);
        give_parameters(draw, 2);
        put_list(vectors);
        give_nothing(setting_at(i), draw_below(draw, 3));
        give_parameters(draw, draw_below(draw, 8));
        put_list(vectors);
    }
    for (unsigned i = 0; i < 160; i++) {
        give_nothing(draw_refused(draw), i % 4);
        give_parameters(draw, draw_below(draw, 6));
        put_list(vectors);
    }
}

/* ---- Lists ---- */

/* K2, K3: each form by itself, with all its words, then without the last of them, then with one more word
 * that is reserved. */
static void put_forms(struct vectors *vectors)
{
    for (unsigned i = 0; i < ACCEPTED * PATTERNS; i++) {
        give_nothing(accepted_at(i / PATTERNS), 0);
        give_command(&vectors->draw, 1 + i % PATTERNS);
        put_list(vectors);
        given.count--;
        put_list(vectors);
        given.count++;
        give_reserved(&vectors->draw);
        put_list(vectors);
    }
}

/* Mostly few. */
static uint32_t draw_commands(struct draw *draw)
{
    return 1 + draw_below(draw, draw_once_in(draw, 10) ? 40 : 8);
}

/* K3, K5: commands with all their words; without the last word; a reserved word behind them, and more of
 * them; a place in the middle, which may be that of a parameter, and one beyond. */
static void put_written(struct vectors *vectors, struct setting setting)
{
    struct draw *draw = &vectors->draw;

    give_nothing(setting, 0);
    give_commands(draw, draw_commands(draw));
    put_list(vectors);
    given.start = draw_below(draw, given.count);
    put_list(vectors);
    given.start = draw_beyond(draw);
    put_list(vectors);
    given.start = 0;
    given.count--;
    put_list(vectors);
    give_nothing(setting, 0);
    give_commands(draw, draw_commands(draw));
    give_reserved(draw);
    give_commands(draw, draw_below(draw, 3));
    put_list(vectors);
}

/* W15, K2, K3: runs of as many parameters as there are words behind them, one more and one less, and up to
 * the largest count. */
static void put_counts(struct vectors *vectors, struct setting setting, uint32_t number)
{
    struct draw *draw = &vectors->draw;
    uint32_t there = draw_below(draw, 6);
    uint32_t field = pattern_bits(patterns[number - 1], 'C');
    uint32_t largest = number == READING_LONG ? 0xffffff : 0x7ff;
    uint32_t counts[] = {there, there + 1, there == 0 ? 0 : there - 1, there + 0x100, largest - 1, largest};

    for (unsigned i = 0; i < sizeof counts / sizeof counts[0]; i++) {
        uint32_t word = draw_form(draw, patterns[number - 1]) & ~field;

        give_nothing(setting, 0);
        give_commands(draw, draw_below(draw, 2));
        give_word(word | spread(field, counts[i]));
        if (number == READING_LONG)
            give_word((draw_number(draw) & 0xff000000) | counts[i]);
        give_parameters(draw, there);
        put_list(vectors);
    }
}

/* W16, K3: a long form that lacks its count word, behind other commands. */
static void put_without_count(struct vectors *vectors, struct setting setting)
{
    struct draw *draw = &vectors->draw;

    give_nothing(setting, 0);
    give_commands(draw, draw_below(draw, 4));
    give_word(draw_form(draw, patterns[READING_LONG - 1]));
    put_list(vectors);
}

/* K3, K6: for each why that the setting has, a word that is reserved for it as the first, and behind
 * commands; what stands behind it is not come to. */
static void put_whys(struct vectors *vectors, struct setting setting)
{
    struct draw *draw = &vectors->draw;

    for (uint32_t i = 0; i < 2 * WHY_SLI; i++) {
        uint32_t why = WHY_FORM + i / 2;

        if (!why_fits(setting, why))
            continue;
        give_nothing(setting, 0);
        give_commands(draw, i % 2 == 0 ? 0 : 1 + draw_below(draw, 2));
        give_word(draw_reserved(draw, setting, why));
        give_parameters(draw, draw_below(draw, 3));
        put_list(vectors);
    }
}

/* Any words, most with small counts. */
static void put_any(struct vectors *vectors, struct setting setting)
{
    struct draw *draw = &vectors->draw;
    uint32_t count = draw_below(draw, 24);

    give_nothing(setting, 0);
    for (uint32_t i = 0; i < count; i++) {
        uint32_t word = draw_word(draw);

        give_word(draw_once_in(draw, 3) ? word : word & 0xe00fffff);
    }
    given.start = draw_below(draw, 3);
    put_list(vectors);
}

/* K5: as many commands as a list can have. */
static void put_most(struct vectors *vectors, struct setting setting)
{
    give_nothing(setting, 0);
    while (given.count < MOST_WORDS)
        give_word(draw_number(&vectors->draw) & 0x0000fffc);
    put_list(vectors);
}

static void put_lists(struct vectors *vectors)
{
    put_settings(vectors);
    put_forms(vectors);
    for (unsigned i = 0; i < ACCEPTED; i++) {
        struct setting setting = accepted_at(i);

        for (unsigned j = 0; j < 14; j++)
            put_written(vectors, setting);
        put_counts(vectors, setting, READING_INCREASING);
        if (has_form(setting, READING_NON_INCREASING))
            put_counts(vectors, setting, READING_NON_INCREASING);
        for (unsigned j = 0; j < 4 && setting.mode == MODE_IB; j++)
            put_counts(vectors, setting, READING_LONG);
        for (unsigned j = 0; j < 10 && setting.mode == MODE_IB; j++)
            put_without_count(vectors, setting);
        for (unsigned j = 0; j < 24; j++)
            put_any(vectors, setting);
        for (unsigned j = 0; j < 3; j++)
            put_whys(vectors, setting);
        /* With SLI on they would be the same. */
        if (!setting.sli)
            put_most(vectors, setting);
    }
}

/* ---- LARGE ---- */

/* A question in which all words are the same. */
struct large {
    struct setting setting;
    uint32_t start;
    uint32_t count;
    uint32_t word;
};

static void put_large(struct vectors *vectors, const struct large *large)
{
    uint32_t record[5 + 1 + ANSWER_WORDS];
    uint64_t place = large->start;
    struct listed listed;
    size_t count;

    given.setting = large->setting;
    given.start = large->start;
    given.count = large->count;
    for (uint32_t i = 0; i < large->count; i++)
        given.words[i] = large->word;
    count = add_head(record);
    record[count++] = large->word;
    listed = add_answer(record + count, &place);
    count += ANSWER_WORDS;
    count_answer(vectors, listed, place, true);
    put_record(vectors, LARGE, record, count, listed.answer);
}

/* R8, R23, W15, K2, K3, K6: places of the most words, too many of them, and runs over all of them. */
static void put_larges(struct vectors *vectors)
{
    /* The word 0x0003fffc is a long form whose count word, the same, gives 0x3fffc parameters; 0x1ffce100 is
     * a run of 0x7ff. */
    enum { ALL = SIZE_LIMIT, LONG_WORDS = 2 + 0x3fffc, RUN_WORDS = 1 + 0x7ff };
    static const struct large rows[] = {
        /* Places of as many words as there may be. */
        {{0, MODE_NV04, false}, 0, ALL, 0x00000000},
        {{0, MODE_NV04, false}, ALL - 1, ALL, 0x00000000},
        {{3, MODE_NV04, true}, ALL - 1, ALL, 0x0001fff0},
        {{2, MODE_NV04, false}, ALL - 1, ALL, 0xfffffffe},
        {{5, MODE_IB, true}, ALL, ALL, 0x00000000},
        {{5, MODE_IB, true}, UINT32_MAX, ALL, 0x00000000},
        {{5, MODE_IB, true}, ALL - 1, ALL, 0xffffffff},
        /* Too many words, and what comes before that. */
        {{0, MODE_NV04, false}, 0, ALL + 1, 0x00000000},
        {{5, MODE_IB, true}, ALL, ALL + 1, 0xffffffff},
        {{4, MODE_IB, false}, ALL + 1, ALL + 1, 0x00000000},
        {{3, MODE_NV04, true}, UINT32_MAX, ALL + 4, 0x00000000},
        {{6, MODE_NV04, true}, 0, ALL + 1, 0x00000000},
        {{5, 2, true}, 0, ALL + 1, 0x00000000},
        {{3, MODE_IB, true}, 1, ALL + 2, 0x00000000},
        {{2, MODE_NV04, true}, 2, ALL + 3, 0x00000000},
        /* Runs over all words or up to the last, and those that a word is lacking for. */
        {{4, MODE_IB, false}, 0, LONG_WORDS, 0x0003fffc},
        {{4, MODE_IB, false}, 0, LONG_WORDS - 1, 0x0003fffc},
        {{5, MODE_IB, true}, ALL - LONG_WORDS, ALL, 0x0003fffc},
        {{5, MODE_IB, true}, ALL - LONG_WORDS + 1, ALL, 0x0003fffc},
        {{5, MODE_IB, true}, ALL - 1, ALL, 0x0003fffc},
        {{1, MODE_NV04, false}, 0, RUN_WORDS, 0x1ffce100},
        {{1, MODE_NV04, false}, 0, RUN_WORDS - 1, 0x1ffce100},
        {{1, MODE_NV04, false}, ALL - RUN_WORDS, ALL, 0x5ffce100},
        {{1, MODE_NV04, false}, ALL - RUN_WORDS + 1, ALL, 0x5ffce100},
        /* Reserved words, for each other why, the last of all. */
        {{0, MODE_NV04, false}, ALL - 1, ALL, 0x5ffce100},
        {{2, MODE_NV04, false}, ALL - 1, ALL, 0x0001fff0},
        {{3, MODE_NV04, true}, ALL - 1, ALL, 0x0003fffc},
        {{3, MODE_NV04, false}, ALL - 1, ALL, 0x0001fff0},
    };

    for (size_t i = 0; i < sizeof rows / sizeof rows[0]; i++)
        put_large(vectors, &rows[i]);
}

/* ---- The program ---- */

int main(int count, char **arguments)
{
    /* LIST is counted by the answer that it comes to, LARGE by its one answer, END by the ends that commands
     * came before, SHORT by the form whose words run short, 0 for a long form that lacks its count word, FORM
     * by the commands' readings, REFUSED by the refusal. WHY counts the ends at a reserved word that are the
     * first answer, END_WHY those that commands came before, by their why. */
    static const char *const names[] = {"LIST", "LARGE", "END", "SHORT", "FORM", "REFUSED", "WHY", "END_WHY"};
    static struct vectors vectors = {.draw = {0x5eed}};

    if (!read_arguments(&vectors, count, arguments))
        return 2;
    put_lists(&vectors);
    put_larges(&vectors);
    if (vectors.counting)
        print_counts(&vectors, names, sizeof names / sizeof names[0]);
    return end_of_output();
}

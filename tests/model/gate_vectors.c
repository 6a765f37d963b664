/* Writes the vectors of the gatekeeper to standard output: questions and the model's answers, as
 * little-endian words. A record starts with its kind:
 *   1 JUDGE  level, SLI, length of the words, of the map and of the permit list in bytes, the permit list's
 *            fill byte, how many of its bytes are others, their indices and values, the words, the map
 *            | reason, refusal, why, count, place
 *   2 LARGE  level, SLI, the three lengths, the permit list's fill byte, every byte of the words, every byte
 *            of the map | reason, refusal, why, count, place
 *   3 REPAIR level, SLI, the three lengths, the permit list's fill byte, how many of its bytes are others,
 *            entries of the list's room, of the work room, the others' indices and values, the words, the
 *            map | refusal, count, the map at exit, how many entries of the list's room follow, these, how
 *            many of the work room, these
 *   4 WIDE   level, SLI, the three lengths, the permit list's fill byte, entries of the list's room, of the
 *            work room, every byte of the words, every byte of the map
 *            | refusal, count, the map's byte at exit at place 0, at every other place; 0 where none is
 *   5 SEARCH level, mode, SLI, length of the words and of the permit list in bytes, the list's fill byte,
 *            how many of its bytes are others, entries of the room, the others' indices and values, the
 *            words | refusal, count, how many entries of the room follow, these
 *   6 READ   level, mode, SLI, word, next word | the number for C, lower half, upper half
 * A why is that of reason 3, 1 to 4, and 0 of any other answer; the number for C has that of a reserved word
 * in bits 23-16. The bytes of words and map fill words from the low byte on, the last one up with 0. An entry
 * of a room is its lower half, then its upper half; before, each is 0xfedcba9876543210, and so are afterwards
 * those that don't follow. Of a refusal none follow, else the whole list, and two a word of the other rooms.
 * With --counts it prints how many records there are of each kind, and how many per answer, instead. */
#include "gate_vectors.h"
#include "pattern.h"

/* What a JUDGE record can hold. */
enum { MOST_RECORD = 7 + 2 * MOST_LISTED + MOST_WORDS + MOST_WORDS / 4 + 5 };

/* The answers under which refused records are counted, apart from reasons. */
enum { ANSWER_REFUSED = 20 };
_Static_assert((int)REASON_COUNT <= (int)ANSWER_REFUSED, "no refusal is counted under a reason");
_Static_assert(ANSWER_REFUSED + (int)REFUSAL_COUNT <= (int)ANSWERS, "every refusal has its answer");

/* What a wrong reading would pass: a run that were followed from 0x1ffc to method 0, and a call whose next
 * word needed no mark. */
enum { MISREADING_NONE = 0, MISREADING_WRAP = 1, MISREADING_CALL = 2 };

/* What is shown of reason 13: accepted with a run up to 0x1ffc, or with a non-increasing one that would go
 * past it; 13 by one parameter, with 7, 8 or 9 behind it, or inside alone; 6 with 13 behind it. */
enum {
    WRAP_UP_TO = 1,
    WRAP_STAYS = 2,
    WRAP_BY_ONE = 3,
    WRAP_LACKING = 4,
    WRAP_FORBIDDEN = 5,
    WRAP_MARKED = 6,
    WRAP_INSIDE = 7,
    WRAP_SHORT = 8
};

struct given given;

/* ---- Runs and 0x1ffc ---- */

/* G13: the method's number and the count of an increasing run with parameters: METHODS where it comes to
 * 0x1ffc, and more where it goes past. Of any other command 0. */
static uint32_t run_end(uint32_t place)
{
    struct reading command = command_of(&given, place);
    bool has_end = command.number == READING_INCREASING && command.value[0] != 0;

    return has_end ? command.value[2] / 4 + command.value[0] : 0;
}

/* Whether a non-increasing run has so many parameters that an increasing one would go past 0x1ffc. */
static bool is_staying(uint32_t place)
{
    struct reading command = command_of(&given, place);

    return command.number == READING_NON_INCREASING && command.value[2] / 4 + command.value[0] > METHODS;
}

/* G29: the number of the method to which parameter k of a run goes, on from 0 past the last. */
static uint32_t method_at(struct reading command, uint32_t k)
{
    uint32_t method = command.value[2] / 4;

    return command.number == READING_INCREASING ? (method + k) % METHODS : method;
}

/* G7: whether a parameter of a run goes to a method that the level lacks. */
static bool is_lacking(uint32_t place)
{
    struct reading command = command_of(&given, place);

    for (uint32_t k = 0; k < command.value[0]; k++)
        if (!model_present(given.level, method_at(command, k)))
            return true;
    return false;
}

/* G8, G23: whether one goes to a method that the list, which may be short, doesn't permit. */
static bool is_forbidden(uint32_t place)
{
    struct reading command = command_of(&given, place);

    for (uint32_t k = 0; k < command.value[0]; k++) {
        uint32_t bit = METHODS * command.value[1] + method_at(command, k);

        if (bit / 8 >= given.permit_length || (given.permit[bit / 8] >> bit % 8 & 1) == 0)
            return true;
    }
    return false;
}

/* G9: whether a parameter of a run is marked. They are all there. */
static bool is_marked(uint32_t place)
{
    uint32_t count = command_of(&given, place).value[0];

    for (uint32_t k = 1; k <= count; k++)
        if (given.map[place + k] != 0)
            return true;
    return false;
}

/* G13, H2: whether a run leads to a word behind its parameters, unless it has reason 13. */
static bool is_good_but_for_wrap(uint32_t place)
{
    return place + command_of(&given, place).value[0] + 1 < word_count(&given) && !is_lacking(place) &&
           !is_forbidden(place);
}

void count_path(struct vectors *vectors, uint32_t answer, bool (*is_reached)(uint32_t pair))
{
    bool is_stopped = false;
    bool is_led = false;

    for (uint32_t pair = 0; pair < 2 * word_count(&given); pair++) {
        uint32_t end = run_end(pair / 2);
        uint32_t next = pair + 2 + 2 * command_of(&given, pair / 2).value[0];

        if (end < METHODS || !is_reached(pair) || !is_good_but_for_wrap(pair / 2))
            continue;
        is_stopped = is_stopped || (end > METHODS && !is_reached(next));
        is_led = is_led || (end == METHODS && is_reached(next));
    }
    if (is_stopped)
        count_one(vectors, PATH, answer);
    if (is_led)
        count_one(vectors, PATH, answer + 1);
}

/* ---- Counts ---- */

static void count_wrap(struct vectors *vectors, bool is_shown, uint32_t answer)
{
    if (is_shown)
        count_one(vectors, WRAP, answer);
}

/* WRAP of accepted words, by what a run of theirs shows. */
static void count_accepted(struct vectors *vectors)
{
    bool comes_up_to = false;
    bool stays = false;

    for (uint32_t place = 0; place < word_count(&given); place++) {
        if (given.map[place] == 0)
            continue;
        comes_up_to = comes_up_to || run_end(place) == METHODS;
        stays = stays || is_staying(place);
    }
    count_wrap(vectors, comes_up_to, WRAP_UP_TO);
    count_wrap(vectors, stays, WRAP_STAYS);
}

/* WRAP of a run that goes past 0x1ffc, by all that it shows. */
static void count_wrapping(struct vectors *vectors, uint32_t place)
{
    count_wrap(vectors, run_end(place) == METHODS + 1, WRAP_BY_ONE);
    count_wrap(vectors, is_lacking(place), WRAP_LACKING);
    count_wrap(vectors, is_forbidden(place), WRAP_FORBIDDEN);
    count_wrap(vectors, is_marked(place), WRAP_MARKED);
    count_wrap(vectors, given.map[place] == STATE_SUBROUTINE, WRAP_INSIDE);
}

/* WRAP of a submission that isn't refused. */
static void count_wraps(struct vectors *vectors, struct judgement judgement)
{
    if (judgement.reason == REASON_NONE)
        count_accepted(vectors);
    else if (judgement.reason == REASON_WRAPS)
        count_wrapping(vectors, judgement.place);
    else if (judgement.reason == REASON_PARAMETERS)
        count_wrap(vectors, run_end(judgement.place) > METHODS, WRAP_SHORT);
}

/* G40: the why of reason 3, and once more each where it is at place 0, between other words, and at a place
 * that is marked inside alone. */
static void count_whys(struct vectors *vectors, struct judgement judgement)
{
    uint32_t place = judgement.place;

    if (judgement.reason != REASON_RESERVED)
        return;
    count_one(vectors, WHY, judgement.why);
    if (place == 0)
        count_one(vectors, FIRST_WHY, judgement.why);
    if (place != 0 && place + 1 < word_count(&given))
        count_one(vectors, MIDDLE_WHY, judgement.why);
    if (given.map[place] == STATE_SUBROUTINE)
        count_one(vectors, INSIDE_WHY, judgement.why);
}

/* G13, G26: whether nothing else is against the methods and the parameters of a run. */
static bool is_decided_by_wrap(uint32_t place)
{
    return !is_lacking(place) && !is_forbidden(place) && !is_marked(place);
}

/* G11, G27: whether the word after a call lacks its mark, but its target doesn't. */
static bool is_decided_by_call(uint32_t place)
{
    uint32_t target = command_of(&given, place).value[0] / 4;

    return is_call(&given, place) && (given.map[target] & STATE_SUBROUTINE) != 0;
}

/* The misreading that would give another answer. */
static uint32_t misreading(struct judgement judgement)
{
    if (judgement.reason == REASON_WRAPS && is_decided_by_wrap(judgement.place))
        return MISREADING_WRAP;
    if (judgement.reason == REASON_UNMARKED && is_decided_by_call(judgement.place))
        return MISREADING_CALL;
    return MISREADING_NONE;
}

/* G24, G31, G40: the record of the submission, its answer still to be added. */
static void put_judged(struct vectors *vectors, uint32_t kind, uint32_t *record, size_t count)
{
    struct submission submission = submission_of(&given);
    struct judgement judgement = model_judge(&submission);
    uint32_t misread = misreading(judgement);
    bool is_refused = judgement.refusal != REFUSAL_NONE;

    record[count++] = judgement.reason;
    record[count++] = judgement.refusal;
    record[count++] = judgement.why;
    record[count++] = judgement.count;
    record[count++] = judgement.place;
    put_record(vectors, kind, record, count,
               is_refused ? ANSWER_REFUSED + judgement.refusal : judgement.reason);
    if (is_refused)
        count_one(vectors, REFUSED, judgement.refusal);
    else
        count_wraps(vectors, judgement);
    count_whys(vectors, judgement);
    if (misread != MISREADING_NONE)
        count_one(vectors, MISREADING, misread);
}

/* ---- JUDGE ---- */

size_t add_bytes(uint32_t *record, const uint8_t *bytes, size_t length)
{
    size_t count = (length + 3) / 4;

    memset(record, 0, count * sizeof record[0]);
    for (size_t i = 0; i < length; i++)
        record[i / 4] |= (uint32_t)bytes[i] << 8 * (i % 4);
    return count;
}

size_t add_entries(uint32_t *record, const uint64_t *room, size_t length)
{
    record[0] = (uint32_t)length;
    for (size_t i = 0; i < length; i++) {
        record[1 + 2 * i] = (uint32_t)room[i];
        record[2 + 2 * i] = (uint32_t)(room[i] >> 32);
    }
    return 1 + 2 * length;
}

uint32_t listed_count(void)
{
    uint32_t count = 0;

    for (size_t i = 0; i < given.permit_length; i++)
        count += given.permit[i] != given.permit_fill;
    return count;
}

size_t add_listed(uint32_t *record)
{
    size_t count = 0;

    for (size_t i = 0; i < given.permit_length; i++) {
        if (given.permit[i] == given.permit_fill)
            continue;
        record[count++] = (uint32_t)i;
        record[count++] = given.permit[i];
    }
    return count;
}

size_t add_head(uint32_t *record)
{
    uint32_t head[] = {given.level,
                       given.sli,
                       (uint32_t)given.words_length,
                       (uint32_t)given.map_length,
                       (uint32_t)given.permit_length,
                       given.permit_fill};

    memcpy(record, head, sizeof head);
    return sizeof head / sizeof head[0];
}

void fit_permit(void)
{
    size_t length = given.permit_length;

    if (listed_count() <= MOST_LISTED)
        return;
    fill_permit(&given, 0xff);
    given.permit_length = length;
}

static void put_judge(struct vectors *vectors)
{
    uint32_t record[MOST_RECORD];
    size_t count;

    fit_permit();
    count = add_head(record);
    record[count++] = listed_count();
    count += add_listed(record + count);
    count += add_bytes(record + count, given.words, given.words_length);
    count += add_bytes(record + count, given.map, given.map_length);
    put_judged(vectors, JUDGE, record, count);
}

void give_setting(unsigned i)
{
    given.level = i < 6 ? i : i - 3;
    given.sli = i < 6 ? 0 : 1;
}

/* G24, G30: no words, whatever is permitted. */
static void put_empty(struct vectors *vectors)
{
    static const uint8_t fills[] = {0, 0xff, 0x5a};

    for (unsigned i = 0; i < SETTINGS; i++)
        for (unsigned j = 0; j < sizeof fills; j++) {
            give_setting(i);
            set_count(&given, 0);
            fill_permit(&given, fills[j]);
            put_judge(vectors);
        }
}

/* G1, G2, G3, G4, G5, G6, G10, G12, G22, G28, G29: one word, with any map byte: each form, with targets
 * before, at and past the end. */
static void put_one_word(struct vectors *vectors)
{
    static const uint32_t words[] = {0x00000000, 0x0000fffc, 0x40000100, 0x00040100, 0x20000000, 0x20000004,
                                     0x20000008, 0x00000001, 0x00000005, 0x00000009, 0x00000002, 0x00000006,
                                     0x0000000a, 0x00020000, 0x00010050, 0x00030100, 0x00000003};
    static const uint8_t marks[] = {0, 1, 2, 3, 4, 255};

    for (unsigned i = 0; i < SETTINGS; i++)
        for (unsigned j = 0; j < sizeof words / sizeof words[0]; j++)
            for (unsigned k = 0; k < sizeof marks; k++) {
                give_setting(i);
                set_count(&given, 1);
                set_word(&given, 0, words[j]);
                given.map[0] = marks[k];
                fill_permit(&given, 0);
                put_judge(vectors);
            }
}

/* One run and its parameters, of which all methods are permitted, and no other. The method is a number. */
static void give_run(struct draw *draw, uint32_t form, uint32_t count, uint32_t subchannel, uint32_t method)
{
    set_count(&given, 1 + count);
    fill_permit(&given, 0);
    memset(given.map, 0, given.map_length);
    given.map[0] = STATE_MAIN;
    set_word(&given, 0, form | count << 18 | subchannel << 13 | method << 2);
    for (uint32_t i = 1; i <= count; i++)
        set_word(&given, i, draw_word(draw));
    permit_run(&given, 0);
}

/* G6, G13, G26, G29: increasing runs up to 0x1ffc; past it to method 0, which is permitted or not, or on to
 * methods that are lacking; and one of which a word is missing. */
static void put_wraps(struct vectors *vectors)
{
    static const struct {
        uint32_t past;
        bool is_permitted;
        uint32_t missing;
    } ways[] = {{0, false, 0}, {1, true, 0}, {1, false, 0}, {2, true, 0}, {1, true, 1}};

    for (unsigned i = 0; i < 5 * 8 * SETTINGS; i++) {
        uint32_t before = 1 + draw_below(&vectors->draw, 4);
        uint32_t count = before + ways[i % 5].past;
        uint32_t subchannel = i / 5 % 8;

        give_setting(i / 40);
        give_run(&vectors->draw, 0, count, subchannel, METHODS - before);
        set_permit(&given, subchannel, 0, ways[i % 5].is_permitted);
        set_count(&given, 1 + count - ways[i % 5].missing);
        put_judge(vectors);
    }
}

static void give_start(uint32_t place, uint32_t word, uint8_t mark)
{
    set_word(&given, place, word);
    given.map[place] = mark;
}

/* G13: such runs inside, up to 0x1ffc and past it by one parameter. Before them is a jump in main, and
 * behind them one inside, both onto themselves. */
static void put_inside_wraps(struct vectors *vectors)
{
    for (unsigned i = 0; i < 2 * 3 * SETTINGS; i++) {
        uint32_t before = 1 + draw_below(&vectors->draw, 4);
        uint32_t subchannel = draw_below(&vectors->draw, 8);
        uint32_t count = before + i % 2;
        uint32_t behind = 2 + count;

        give_setting(i / 6);
        set_count(&given, behind + 1);
        fill_permit(&given, 0);
        give_start(0, 0x20000000, STATE_MAIN);
        give_start(1, count << 18 | subchannel << 13 | (METHODS - before) << 2, STATE_SUBROUTINE);
        for (uint32_t place = 2; place < behind; place++)
            give_start(place, draw_word(&vectors->draw), 0);
        give_start(behind, 0x20000000 | 4 * behind, STATE_SUBROUTINE);
        permit_run(&given, 1);
        put_judge(vectors);
    }
}

/* G3, G21, G25, G40: a word that is reserved for a why, at place 0, between words in main, or inside alone;
 * before it are no other reasons, and behind it is a word of no form, whose why is not the one to be told. */
static void put_reserved(struct vectors *vectors, uint32_t why)
{
    static const struct {
        uint32_t place;
        uint8_t marks[4];
    } ways[] = {{0, {STATE_MAIN, STATE_MAIN, 0, 0}},
                {2, {STATE_MAIN, STATE_MAIN, STATE_MAIN, STATE_MAIN}},
                {1, {STATE_MAIN, STATE_SUBROUTINE, STATE_BOTH, STATE_MAIN}}};
    struct setting setting = {given.level, MODE_NV04, given.sli != 0};

    for (unsigned i = 0; i < sizeof ways / sizeof ways[0]; i++) {
        uint32_t place = ways[i].place;

        set_count(&given, 4);
        fill_permit(&given, 0xff);
        for (uint32_t j = 0; j < 4; j++)
            give_start(j, j <= place ? 0 : 0x00000003, ways[i].marks[j]);
        /* A jump onto itself, behind which the next start may be of another state. */
        if (place == 1)
            set_word(&given, 0, 0x20000000);
        set_word(&given, place, draw_reserved(&vectors->draw, setting, why));
        put_judge(vectors);
    }
}

/* W20, W21, W22, W23, G40: each why at each setting that has it; LEVEL and SLI, which fewer settings have,
 * more often. */
static void put_reserveds(struct vectors *vectors)
{
    static const unsigned times[] = {[WHY_FORM] = 1, [WHY_LEVEL] = 5, [WHY_MODE] = 2, [WHY_SLI] = 5};

    for (unsigned i = 0; i < SETTINGS * WHY_SLI; i++) {
        uint32_t why = WHY_FORM + i / SETTINGS;

        give_setting(i % SETTINGS);
        if (!why_fits((struct setting){given.level, MODE_NV04, given.sli != 0}, why))
            continue;
        for (unsigned j = 0; j < times[why]; j++)
            put_reserved(vectors, why);
    }
}

/* G7, G8, G13, G23, G24, G29: a run of any method, of fewer parameters than a limit: one of its methods is
 * not permitted, or the one after it, or all are. Some come to 0x1ffc with their last parameter, or with the
 * one before. */
static void put_run(struct vectors *vectors, uint32_t limit)
{
    struct draw *draw = &vectors->draw;
    uint32_t form = draw_below(draw, 2) << 30;
    uint32_t count = draw_below(draw, limit);
    uint32_t subchannel = draw_below(draw, 8);
    uint32_t low = draw_below(draw, 0x40);
    uint32_t last = METHODS - count;
    uint32_t methods[] = {low, 0x40 + low, METHODS - 1 - low, draw_below(draw, METHODS), last, last + 1};
    uint32_t method = draw_among(draw, methods, 6) % METHODS;
    uint32_t other = (method + draw_below(draw, count + 2)) % METHODS;

    give_setting(draw_below(draw, SETTINGS));
    give_run(draw, form, count, subchannel, method);
    if (draw_once_in(draw, 2))
        set_permit(&given, subchannel, other, false);
    else if (draw_once_in(draw, 2))
        fill_permit(&given, 0xff);
    put_judge(vectors);
}

static void put_runs(struct vectors *vectors)
{
    for (unsigned i = 0; i < 300; i++)
        put_run(vectors, 12);
    for (unsigned i = 0; i < 60; i++)
        put_run(vectors, 255);
}

/* Mostly few words. */
static uint32_t draw_size(struct draw *draw)
{
    static const uint32_t limits[] = {4, 8, 16, 16, 16, 32, 32, 32, 48, 250};
    uint32_t limit = draw_among(draw, limits, sizeof limits / sizeof limits[0]);

    return 1 + draw_below(draw, limit);
}

/* Sound words, half of the time with only those starts marked that are reached. */
static void draw_accepted(struct draw *draw)
{
    draw_sound(draw, &given, draw_size(draw));
    if (draw_once_in(draw, 2))
        give_exact_map(&given);
}

/* G25, G26, G27, G31, H5, H6: sound words, with every mark or the exact map, damaged ones, wild ones, and
 * what is refused. */
static void put_drawn(struct vectors *vectors)
{
    struct draw *draw = &vectors->draw;

    for (unsigned i = 0; i < 450; i++) {
        draw_accepted(draw);
        put_judge(vectors);
    }
    for (unsigned i = 0; i < 100 * damage_count(); i++) {
        draw_accepted(draw);
        damage(draw, &given, i % damage_count());
        put_judge(vectors);
    }
    for (unsigned i = 0; i < 600; i++) {
        draw_wild(draw, &given, draw_size(draw));
        if (i % 2 == 0)
            give_exact_map(&given);
        put_judge(vectors);
    }
    for (unsigned i = 0; i < 600; i++) {
        draw_wild(draw, &given, 2 + i % 3);
        put_judge(vectors);
    }
    for (unsigned i = 0; i < 350; i++) {
        draw_accepted(draw);
        refuse(draw, &given);
        put_judge(vectors);
    }
}

/* ---- LARGE ---- */

/* A question in which all bytes of the words are the same, and all of the map. */
struct large {
    uint32_t level;
    uint32_t sli;
    uint32_t words_length;
    uint32_t map_length;
    uint32_t permit_length;
    uint8_t permit_fill;
    uint8_t words_fill;
    uint8_t map_fill;
};

static void put_large(struct vectors *vectors, const struct large *large)
{
    uint32_t record[8 + 5];
    size_t count;

    given.level = large->level;
    given.sli = large->sli;
    fill_permit(&given, large->permit_fill);
    given.words_length = large->words_length;
    given.map_length = large->map_length;
    given.permit_length = large->permit_length;
    memset(given.words, large->words_fill, given.words_length);
    memset(given.map, large->map_fill, given.map_length);
    count = add_head(record);
    record[count++] = large->words_fill;
    record[count++] = large->map_fill;
    put_judged(vectors, LARGE, record, count);
}

/* R8, R9, R28: sizes around the largest, and reasons that only many words can give. */
static void put_larges(struct vectors *vectors)
{
    enum { ALL = SIZE_LIMIT };
    static const struct large rows[] = {
        /* Sizes at the limit and around it. */
        {0, 0, 4 * ALL, ALL, 2048, 0x00, 0x00, 1},
        {5, 0, 4 * ALL + 1, ALL, 2048, 0xff, 0x00, 1},
        {5, 2, 4 * ALL + 4, ALL + 1, 2048, 0xff, 0x00, 1},
        {3, 1, 4 * ALL + 7, ALL + 1, 2047, 0xff, 0x00, 1},
        {2, 0, 4 * ALL + 8, ALL + 2, 2048, 0xff, 0x00, 0},
        {1, 0, 4 * ALL + 2, 0, 0, 0xff, 0xff, 4},
        {6, 1, 4 * ALL + 8, ALL + 2, 2049, 0xff, 0x00, 1},
        {2, UINT32_MAX, 4 * ALL + 8, ALL + 4, 2049, 0xff, 0x00, 1},
        {5, 0, 4 * ALL - 1, ALL - 1, 2048, 0xff, 0x00, 1},
        {4, 1, 4 * ALL, ALL - 1, 2048, 0xff, 0x00, 1},
        {4, 1, 4 * ALL, ALL + 1, 2048, 0xff, 0x00, 1},
        {5, 1, 4 * ALL, ALL, 2047, 0xff, 0x00, 1},
        {5, 1, 4 * ALL, ALL, 2049, 0xff, 0x00, 1},
        /* A subroutine that runs into the end; old jumps to one place, in both states. */
        {3, 1, 4 * ALL, ALL, 2048, 0xff, 0x00, 3},
        {0, 0, 4 * ALL, ALL, 2048, 0x81, 0x20, 3},
        /* Jumps far past the end; 257 parameters, the first of them marked; the same not permitted. */
        {2, 0, 4 * ALL, ALL, 2048, 0xff, 0x01, 1},
        {5, 0, 4 * ALL, ALL, 2048, 0xff, 0x04, 1},
        {5, 0, 4 * ALL, ALL, 2048, 0x7f, 0x04, 3},
        /* 16 parameters for a method that no level has. */
        {1, 0, 4 * ALL, ALL, 2048, 0xff, 0x40, 1},
        /* 1,799 parameters from method 1,799 on: past the end by one, or past 0x1ffc; 1,028 from method
         * 1,028 on, past it too; 771 from method 771 on, which aren't. */
        {1, 0, 4 * 1799, 1799, 2048, 0xff, 0x1c, 1},
        {1, 0, 4 * 1800, 1800, 2048, 0xff, 0x1c, 1},
        {0, 0, 4 * ALL, ALL, 2048, 0x00, 0x10, 3},
        {0, 0, 4 * ALL, ALL, 2048, 0xff, 0x0c, 3},
        /* Reserved words: of no form, and calls below their level. */
        {5, 1, 4 * ALL, ALL, 2048, 0xff, 0xff, 1},
        {1, 0, 4 * ALL, ALL, 2048, 0xff, 0x02, 3},
    };

    for (size_t i = 0; i < sizeof rows / sizeof rows[0]; i++)
        put_large(vectors, &rows[i]);
}

/* ---- The program ---- */

int main(int count, char **arguments)
{
    /* JUDGE and LARGE are counted by the reason, 0 where accepted, or by 20 plus the refusal; REFUSED by the
     * refusal, MISREADING by what is caught, WRAP by what is shown of runs and 0x1ffc, WHY by the why of
     * reason 3; FIRST_WHY, MIDDLE_WHY and INSIDE_WHY are those of place 0, of a place between others and of
     * one that is marked inside alone. REPAIR, WIDE and SEARCH by the refusal, 0 where there is none, READ by
     * the reading's number, READ_WHY by its why. */
    static const char *const names[] = {
        "JUDGE",      "LARGE",      "REPAIR",     "WIDE",     "SEARCH", "READ",  "REFUSED",
        "MISREADING", "CHANGED",    "CHANGE",     "MARK",     "BAD",    "SHORT", "FOUND",
        "ORDER",      "SETTING",    "LIST",       "CUT",      "WRAP",   "PATH",  "WHY",
        "FIRST_WHY",  "MIDDLE_WHY", "INSIDE_WHY", "READ_WHY",
    };
    static struct vectors vectors = {.draw = {0x5eed}};

    if (!read_arguments(&vectors, count, arguments))
        return 2;
    put_empty(&vectors);
    put_one_word(&vectors);
    put_wraps(&vectors);
    put_inside_wraps(&vectors);
    put_reserveds(&vectors);
    put_runs(&vectors);
    put_drawn(&vectors);
    put_larges(&vectors);
    put_repairs(&vectors);
    put_wides(&vectors);
    put_searches(&vectors);
    put_readings(&vectors);
    if (vectors.counting)
        print_counts(&vectors, names, sizeof names / sizeof names[0]);
    return end_of_output();
}

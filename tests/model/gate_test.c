/* The self-test of the models of gatekeeper and path rule: the rules as cases worked out by hand, a second
 * reading of both, one condition at a time, and what must hold of any submission and of accepted words on a
 * channel. */
#include <inttypes.h>
#include <stdio.h>
#include <stdlib.h>
#include <string.h>

#include "gate_draw.h"
#include "gate_run.h"

static uint64_t checks;

/* Counts a check; the first that fails is named, with the judgement at issue, and ends the run. */
static void check(bool good, const char *sentence, uint32_t level, struct judgement judgement)
{
    checks++;
    if (good)
        return;
    fprintf(stderr, "gate model: failed: %s (level %" PRIu32 "; reason %" PRIu32 ", refusal %" PRIu32,
            sentence, level, judgement.reason, judgement.refusal);
    fprintf(stderr, ", why %" PRIu32 ", count %" PRIu32 ", place %" PRIu32 ")\n", judgement.why,
            judgement.count, judgement.place);
    exit(1);
}

static bool same(struct judgement a, struct judgement b)
{
    return a.reason == b.reason && a.refusal == b.refusal && a.why == b.why && a.count == b.count &&
           a.place == b.place;
}

/* ---- What is lent ---- */

/* The submission of a case. */
static struct given given;

/* A copy that ends with its room, so that the sanitizers see what is read behind it. */
static struct submission lend(void)
{
    static uint8_t words[4 * WORDS_ROOM];
    static uint8_t map[WORDS_ROOM];
    static uint8_t permit[PERMIT_ROOM];
    struct submission submission = submission_of(&given);

    submission.words = words + sizeof words - given.words_length;
    submission.map = map + sizeof map - given.map_length;
    submission.permit = permit + sizeof permit - given.permit_length;
    memcpy(words + sizeof words - given.words_length, given.words, given.words_length);
    memcpy(map + sizeof map - given.map_length, given.map, given.map_length);
    memcpy(permit + sizeof permit - given.permit_length, given.permit, given.permit_length);
    return submission;
}

/* The submission is judged so. */
static void judges(const char *sentence, struct judgement wanted)
{
    struct submission submission = lend();
    struct judgement judgement = model_judge(&submission);

    check(same(judgement, wanted), sentence, given.level, judgement);
}

/* G40: no reason but 3 has a why. */
static void gives_reason(const char *sentence, uint32_t reason, uint32_t count, uint32_t place)
{
    judges(sentence, (struct judgement){reason, REFUSAL_NONE, WHY_NONE, count, place});
}

/* G24, G31, G40: the submission is refused, which has neither a why nor a count nor a place. */
static void gives_refusal(const char *sentence, uint32_t refusal)
{
    judges(sentence, (struct judgement){REASON_NONE, refusal, WHY_NONE, 0, 0});
}

/* ---- Refusals ---- */

enum { REFUSALS = 4, ALL_PERMITTED = 8 * PERMIT_BYTES };

/* So many words that are 0, all marked for main. */
static void give_zeros(uint32_t count)
{
    set_count(&given, count);
    memset(given.words, 0, given.words_length);
    memset(given.map, STATE_MAIN, given.map_length);
    fill_permit(&given, 0xff);
}

/* R1, R4, R8, R9, R21, R28: the gatekeeper's conditions, in their order, each by itself. */
static uint32_t first_of_refusals(void)
{
    static const uint32_t numbers[REFUSALS] = {1, 4, 8, 9};
    size_t length = given.words_length;
    bool conditions[REFUSALS] = {
        5 < given.level,
        given.sli != 0 && given.level < 3,
        4194304 < length,
        length % 4 != 0 || given.map_length != length / 4 || given.permit_length != 2048,
    };

    for (unsigned i = 0; i < REFUSALS; i++)
        if (conditions[i])
            return numbers[i];
    return REFUSAL_NONE;
}

/* R28: zeros are accepted at any level, so that nothing but a refusal is told of them. */
static void test_lengths(size_t words_length, size_t map_length, size_t permit_length)
{
    uint32_t refusal;

    given.words_length = words_length;
    given.map_length = map_length;
    given.permit_length = permit_length;
    refusal = first_of_refusals();
    if (refusal != REFUSAL_NONE)
        gives_refusal("the gatekeeper's order", refusal);
    else
        gives_reason("zeros are accepted", REASON_NONE, ALL_PERMITTED, 0);
}

/* R1, R4, R9, R28, G32: every length at issue, at levels and with SLI settings that a narrower type would cut
 * to others. */
static void test_refusals(void)
{
    static const uint32_t levels[] = {0, 2, 3, 5, 6, 256, 259, UINT32_MAX};
    static const uint32_t slis[] = {0, 1, 2, 256, UINT32_MAX};
    static const size_t words_lengths[] = {0, 1, 3, 4, 5, 8};
    static const size_t permit_lengths[] = {0, 1, 2047, 2048, 2049, 4096};

    give_zeros(4);
    for (unsigned i = 0; i < 8 * 5 * 6; i++)
        for (size_t map_length = 0; map_length <= 3; map_length++)
            for (unsigned j = 0; j < 6; j++) {
                given.level = levels[i % 8];
                given.sli = slis[i / 8 % 5];
                test_lengths(words_lengths[i / 40], map_length, permit_lengths[j]);
            }
}

/* R8, R9, R28: of the sizes around the largest, only those of whole words are not refused for LENGTH. */
static void test_sizes(void)
{
    static const uint32_t settings[][2] = {{5, 1}, {6, 1}, {2, 1}};

    give_zeros(SIZE_LIMIT + 2);
    for (unsigned i = 0; i < 3; i++)
        for (size_t length = 4194300; length <= 4194308; length++) {
            given.level = settings[i][0];
            given.sli = settings[i][1];
            test_lengths(length, length / 4, 2048);
            test_lengths(length, length / 4 + 1, 2048);
            test_lengths(length, length / 4, 2047);
        }
}

/* ---- Reasons ---- */

enum { ROW_WORDS = 6 };

/* A few words with their map. Every method is permitted. */
struct row {
    const char *sentence;
    uint32_t level;
    uint32_t sli;
    uint32_t count;
    uint32_t words[ROW_WORDS];
    uint8_t map[ROW_WORDS];
    uint32_t reason;
    uint32_t place;
};

/* G1, G2, G4, G5, G6, G7, G9, G10, G11, G12, G13, G21, G22, G25, G26, G27, G28, G29, G30: each reason but 3
 * at its place, where two could be given, and next to what is accepted. */
static const struct row rows[] = {
    {"no words", 0, 0, 0, {0}, {0}, 0, 0},

    {"1: a byte that is no mark", 0, 0, 2, {0, 0}, {1, 4}, 1, 1},
    {"1: the lower of two", 0, 0, 4, {0, 0, 0, 0}, {1, 3, 255, 4}, 1, 2},
    {"1 comes before 2 and 3", 0, 0, 3, {3, 3, 3}, {0, 1, 5}, 1, 2},
    {"2: place 0 is no start", 0, 0, 1, {0}, {0}, 2, 0},
    {"2: place 0 is inside alone", 0, 0, 2, {0, 0}, {2, 1}, 2, 0},
    {"2 comes before 3", 0, 0, 2, {0, 3}, {0, 1}, 2, 0},

    {"non-increasing at level 1", 1, 0, 1, {0x40000100}, {1}, 0, 0},
    {"10: a jump, whatever its upper half", 2, 0, 1, {0x00010001}, {1}, 10, 0},
    {"a conditional with SLI on", 3, 9, 1, {0x00010050}, {1}, 0, 0},
    {"a word that is no start", 5, 0, 3, {0x20000008, 3, 0}, {1, 0, 1}, 0, 0},

    {"4: a call inside", 2, 0, 1, {0x00000002}, {3}, 4, 0},
    {"a call in main", 2, 0, 2, {0x00000006, 0x20000004}, {1, 3}, 0, 0},
    {"4 comes before 10", 2, 0, 2, {0x20000000, 0x0000000e}, {1, 2}, 4, 1},
    {"4 comes before 12", 2, 0, 2, {0x20000000, 0x0000000a}, {1, 2}, 4, 1},
    {"10 in main comes before 4 inside", 2, 0, 2, {0x20000004, 0x0000000e}, {1, 3}, 10, 1},
    {"5: a return in main", 2, 0, 1, {0x00020000}, {1}, 5, 0},
    {"5: a return in main", 2, 0, 2, {0x00000006, 0x00020000}, {1, 3}, 5, 1},
    {"nothing follows a return", 2, 0, 3, {0x0000000a, 0x2000000c, 0x00020000}, {1, 1, 2}, 0, 0},

    {"6: a parameter is missing", 0, 0, 1, {0x00040100}, {1}, 6, 0},
    {"6: a parameter is missing", 0, 0, 3, {0x000c0100, 0, 0}, {1, 0, 0}, 6, 0},
    {"6: a parameter is missing", 0, 0, 2, {0, 0x00040100}, {1, 1}, 6, 1},
    {"parameters up to the end", 0, 0, 3, {0x00080100, 3, 3}, {1, 0, 0}, 0, 0},
    {"6 comes before 7", 0, 0, 1, {0x00040050}, {1}, 6, 0},
    {"6 comes before 9", 0, 0, 2, {0x00080100, 0}, {1, 1}, 6, 0},
    {"7: a method of level 1 at level 0", 0, 0, 2, {0x00040050, 0}, {1, 0}, 7, 0},
    {"a method of level 1 at level 1", 1, 0, 2, {0x00040050, 0}, {1, 0}, 0, 0},
    {"7: the second method of a run", 1, 0, 3, {0x00080050, 0, 0}, {1, 0, 0}, 7, 0},
    {"a non-increasing method stays", 1, 0, 3, {0x40080050, 0, 0}, {1, 0, 0}, 0, 0},
    {"7 comes before 9", 0, 0, 2, {0x00040050, 0}, {1, 1}, 7, 0},
    {"count 0 has no method", 0, 0, 2, {0x00000050, 0}, {1, 1}, 0, 0},
    {"count 0 has no method", 5, 0, 2, {0x4000e054, 0}, {1, 1}, 0, 0},

    {"13: two parameters from 0x1ffc on", 0, 0, 3, {0x00081ffc, 0, 0}, {1, 0, 0}, 13, 0},
    {"13: three parameters from 0x1ff8 on", 0, 0, 4, {0x000c1ff8, 0, 0, 0}, {1, 0, 0, 0}, 13, 0},
    {"13: whatever the subchannel", 5, 1, 3, {0x0008fffc, 0, 0}, {1, 0, 0}, 13, 0},
    {"13: in main", 2, 0, 4, {0, 0x00081ffc, 0, 0}, {1, 1, 0, 0}, 13, 1},
    {"13: inside", 2, 0, 5, {0x20000000, 0x00081ffc, 0, 0, 0x00020000}, {1, 2, 0, 0, 2}, 13, 1},
    {"13: in both states", 2, 0, 5, {0x20000000, 0x00081ffc, 0, 0, 0}, {1, 3, 0, 0, 1}, 13, 1},
    {"two parameters up to 0x1ffc", 0, 0, 3, {0x00081ff8, 0, 0}, {1, 0, 0}, 0, 0},
    {"one parameter for 0x1ffc", 0, 0, 2, {0x00041ffc, 0}, {1, 0}, 0, 0},
    {"count 0 at 0x1ffc", 0, 0, 2, {0x00001ffc, 0}, {1, 1}, 0, 0},
    {"a non-increasing run stays at 0x1ffc", 1, 0, 3, {0x40081ffc, 0, 0}, {1, 0, 0}, 0, 0},
    {"up to 0x1ffc inside", 2, 0, 5, {0x20000000, 0x00081ff8, 0, 0, 0x00020000}, {1, 2, 0, 0, 2}, 0, 0},
    {"a run past 0x1ffc that is no start", 0, 0, 4, {0x20000010, 0x00081ffc, 0, 0}, {1, 0, 0, 0}, 0, 0},
    {"6 comes before 13", 0, 0, 2, {0x00081ffc, 0}, {1, 0}, 6, 0},
    {"6 comes before 13", 0, 0, 3, {0x000c1ff8, 0, 0}, {1, 0, 0}, 6, 0},
    {"6 of one parameter for 0x1ffc", 0, 0, 1, {0x00041ffc}, {1}, 6, 0},
    {"13 comes before 7", 5, 0, 4, {0x000c1ffc, 0, 0, 0}, {1, 0, 0, 0}, 13, 0},
    {"13 comes before 9", 0, 0, 3, {0x00081ffc, 0, 0}, {1, 0, 1}, 13, 0},
    {"13 comes before 9", 0, 0, 3, {0x00081ffc, 0, 0}, {1, 2, 0}, 13, 0},
    {"13 comes before 11", 0, 0, 4, {0x00081ffc, 0, 0, 0}, {1, 0, 0, 0}, 13, 0},
    {"13 comes before 12", 0, 0, 4, {0x20000000, 0x00081ffc, 0, 0}, {1, 2, 0, 0}, 13, 1},

    {"9: a marked parameter", 0, 0, 2, {0x00040100, 0}, {1, 1}, 9, 0},
    {"9: a marked parameter", 0, 0, 2, {0x00040100, 0}, {1, 2}, 9, 0},
    {"9: a marked parameter", 0, 0, 4, {0x000c0100, 0, 0, 0}, {1, 0, 0, 3}, 9, 0},
    {"9: a marked parameter", 1, 0, 3, {0x40080100, 0, 0}, {1, 0, 1}, 9, 0},
    {"the word after its parameters is none", 0, 0, 3, {0x00040100, 0, 0}, {1, 0, 1}, 0, 0},
    {"9 comes before 11", 0, 0, 4, {0x00080100, 0, 0, 0}, {1, 1, 0, 0}, 9, 0},
    {"9 comes before 12", 0, 0, 3, {0x20000000, 0x00040100, 0}, {1, 2, 2}, 9, 1},

    {"10: a jump too far", 0, 0, 1, {0x20000008}, {1}, 10, 0},
    {"10: a jump too far", 0, 0, 1, {0x3ffffffc}, {1}, 10, 0},
    {"10: a jump too far", 2, 0, 1, {0x00000009}, {1}, 10, 0},
    {"10: a jump too far", 2, 0, 1, {0xfffffffd}, {1}, 10, 0},
    {"10: a call too far", 2, 0, 1, {0x0000000a}, {1}, 10, 0},
    {"10: a call too far", 2, 0, 2, {0xfffffffe, 0}, {1, 0}, 10, 0},
    {"a jump to the end", 0, 0, 1, {0x20000004}, {1}, 0, 0},
    {"a jump to the end", 2, 0, 2, {0x00000009, 3}, {1, 0}, 0, 0},
    {"12: into the end, inside", 0, 0, 1, {0}, {3}, 12, 0},
    {"12: into the end, inside", 0, 0, 2, {0x20000000, 0x20000008}, {1, 2}, 12, 1},
    {"12: into the end, inside", 3, 1, 2, {0x20000000, 0x00010000}, {1, 2}, 12, 1},
    {"12: into the end, inside", 0, 0, 3, {0, 0x00040100, 0}, {1, 3, 0}, 12, 1},
    {"12: a call of the end", 2, 0, 1, {0x00000006}, {1}, 12, 0},
    {"12 comes before 11", 2, 0, 2, {0x0000000a, 0}, {1, 0}, 12, 0},

    {"11: on to a place without its mark", 0, 0, 2, {0, 0}, {1, 0}, 11, 0},
    {"11: on to a place without its mark", 0, 0, 2, {0, 0}, {1, 2}, 11, 0},
    {"11: on to a place without its mark", 3, 1, 2, {0x00010050, 0}, {1, 2}, 11, 0},
    {"11: on to a place without its mark", 0, 0, 2, {0x20000000, 0x20000000}, {1, 2}, 11, 1},
    {"11: the word after its parameters", 0, 0, 3, {0x00040100, 0, 0}, {1, 0, 2}, 11, 0},
    {"11: a jump's target", 0, 0, 3, {0x20000008, 0, 0}, {1, 1, 0}, 11, 0},
    {"a jump's target alone", 0, 0, 3, {0x20000008, 0, 0}, {1, 0, 1}, 0, 0},
    {"11: a call's target", 2, 0, 3, {0x0000000a, 0x2000000c, 0x00020000}, {1, 1, 0}, 11, 0},
    {"11: a call's target", 2, 0, 2, {0x00000006, 0}, {1, 1}, 11, 0},
    {"11: the word after a call", 2, 0, 3, {0x0000000a, 0x2000000c, 0x00020000}, {1, 0, 2}, 11, 0},
    {"11: the word after a call", 2, 0, 3, {0x0000000a, 0x2000000c, 0x00020000}, {1, 2, 2}, 11, 0},
    {"a call as the last word", 2, 0, 3, {0x20000008, 0x00020000, 0x00000006}, {1, 2, 1}, 0, 0},

    {"the lower place comes first", 0, 0, 3, {0, 0x00040100, 3}, {1, 1, 1}, 9, 1},
    {"a place for both states", 2, 0, 3, {0x0000000a, 0, 0x20000008}, {1, 1, 3}, 0, 0},
};

/* G3, G21, G25, G26, G40: reason 3 with the why of the word at its place: the first, in the middle, the last,
 * marked for main, for both states or inside alone; before the reasons that the same word would have at a
 * higher level, and before other words. */
static const struct {
    struct row row;
    uint32_t why;
} why_rows[] = {
    {{"3: a word of no form", 0, 0, 1, {0x00000003}, {1}, 3, 0}, WHY_FORM},
    {{"3: a word of no form", 5, 1, 1, {0x00020004}, {3}, 3, 0}, WHY_FORM},
    {{"3: nearly a conditional", 3, 0, 1, {0x00010008}, {1}, 3, 0}, WHY_FORM},
    {{"3: non-increasing at level 0", 0, 0, 1, {0x40000100}, {1}, 3, 0}, WHY_LEVEL},
    {{"3: non-increasing at level 0, short", 0, 0, 1, {0x40040100}, {1}, 3, 0}, WHY_LEVEL},
    {{"3: a jump at level 1", 1, 0, 1, {0x00000001}, {1}, 3, 0}, WHY_LEVEL},
    {{"3: a jump at level 1, whatever its upper half", 1, 0, 1, {0x00010001}, {1}, 3, 0}, WHY_LEVEL},
    {{"3: a return at level 1", 1, 0, 1, {0x00020000}, {3}, 3, 0}, WHY_LEVEL},
    {{"3: a call at level 1", 1, 0, 1, {0x00002002}, {3}, 3, 0}, WHY_LEVEL},
    {{"3: a conditional at level 0", 0, 0, 1, {0x00010050}, {1}, 3, 0}, WHY_LEVEL},
    {{"3: a conditional at level 1", 1, 0, 1, {0x00010050}, {1}, 3, 0}, WHY_LEVEL},
    {{"3: a conditional at level 2", 2, 0, 1, {0x00010050}, {1}, 3, 0}, WHY_LEVEL},
    {{"3: a conditional with SLI off", 3, 0, 1, {0x00010050}, {1}, 3, 0}, WHY_SLI},
    {{"3: a conditional with SLI off", 4, 0, 1, {0x0001fff0}, {3}, 3, 0}, WHY_SLI},
    {{"3: a conditional with SLI off", 5, 0, 1, {0x00010000}, {1}, 3, 0}, WHY_SLI},
    {{"3: a long form at level 0", 0, 0, 1, {0x00030100}, {1}, 3, 0}, WHY_MODE},
    {{"3: a long form at level 3", 3, 9, 1, {0x00030100}, {1}, 3, 0}, WHY_MODE},
    {{"3: a long form at level 5", 5, 1, 1, {0x00030100}, {1}, 3, 0}, WHY_MODE},
    {{"a start that isn't reached", 5, 0, 2, {0x20000000, 3}, {1, 1}, 3, 1}, WHY_FORM},
    {{"a start that isn't reached", 5, 0, 2, {0x20000000, 3}, {1, 2}, 3, 1}, WHY_FORM},
    {{"3: in the middle", 0, 0, 3, {0, 0x00000002, 0}, {1, 1, 1}, 3, 1}, WHY_LEVEL},
    {{"3: in the middle", 3, 0, 3, {0, 0x00030000, 0}, {1, 1, 1}, 3, 1}, WHY_MODE},
    {{"3: in the middle", 3, 0, 3, {0, 0x00010000, 0}, {1, 1, 1}, 3, 1}, WHY_SLI},
    {{"3: inside alone", 1, 0, 2, {0x20000000, 0x00020000}, {1, 2}, 3, 1}, WHY_LEVEL},
    {{"3: inside alone", 4, 1, 2, {0x20000000, 0x0003fffc}, {1, 2}, 3, 1}, WHY_MODE},
    {{"3: inside alone", 5, 0, 2, {0x20000000, 0x00010ff0}, {1, 2}, 3, 1}, WHY_SLI},
    {{"the lower place comes first", 0, 0, 3, {0, 3, 0x00040100}, {1, 1, 1}, 3, 1}, WHY_FORM},
    {{"the lower of two whys", 3, 0, 3, {0, 0x00010050, 3}, {1, 1, 1}, 3, 1}, WHY_SLI},
    {{"the lower of two whys", 3, 0, 3, {0, 0x00030100, 0x00010050}, {1, 1, 1}, 3, 1}, WHY_MODE},
    {{"a word that is no start has no why", 3, 0, 3, {0x20000008, 3, 0x00010050}, {1, 0, 1}, 3, 2}, WHY_SLI},
};

static void give_row(const struct row *row)
{
    set_count(&given, row->count);
    given.level = row->level;
    given.sli = row->sli;
    fill_permit(&given, 0xff);
    memcpy(given.map, row->map, row->count);
    for (uint32_t i = 0; i < row->count; i++)
        set_word(&given, i, row->words[i]);
}

static void test_rows(void)
{
    for (size_t i = 0; i < sizeof rows / sizeof rows[0]; i++) {
        give_row(&rows[i]);
        gives_reason(rows[i].sentence, rows[i].reason, ALL_PERMITTED, rows[i].place);
    }
    for (size_t i = 0; i < sizeof why_rows / sizeof why_rows[0]; i++) {
        const struct row *row = &why_rows[i].row;

        give_row(row);
        judges(row->sentence,
               (struct judgement){row->reason, REFUSAL_NONE, why_rows[i].why, ALL_PERMITTED, row->place});
    }
}

/* ---- The path rule ---- */

/* G13, H1, H2, H3, H4, H5: a few words with the pairs that are reached, and the lowest bad place; NOWHERE
 * where none is bad. */
static const struct path_row {
    const char *sentence;
    uint32_t level;
    uint32_t count;
    uint32_t words[ROW_WORDS];
    uint8_t map[ROW_WORDS];
    uint32_t place;
} path_rows[] = {
    {"no words", 0, 0, {0}, {0}, NOWHERE},
    {"one word", 0, 1, {0}, {1}, NOWHERE},
    {"the word after its parameters", 0, 3, {0x00040100, 3, 0}, {1, 0, 1}, NOWHERE},
    {"a jump's target", 0, 3, {0x20000008, 3, 0}, {1, 0, 1}, NOWHERE},
    {"a jump to the end", 0, 2, {0x20000008, 3}, {1, 0}, NOWHERE},
    {"nothing follows a return", 2, 3, {0x0000000a, 0x2000000c, 0x00020000}, {1, 1, 2}, NOWHERE},
    {"a pair each for both states", 2, 3, {0x0000000a, 0, 0x20000008}, {1, 1, 3}, NOWHERE},
    {"nothing follows reason 3", 0, 2, {3, 0}, {1, 0}, 0},
    {"nothing follows reason 4", 2, 4, {0x0000000a, 0x20000010, 0x0000000e, 0}, {1, 1, 2, 0}, 2},
    {"nothing follows reason 5", 2, 2, {0x00020000, 0}, {1, 0}, 0},
    {"nothing follows reason 6", 0, 2, {0x00080100, 0}, {1, 0}, 0},
    {"nothing follows reason 7", 0, 3, {0x00040050, 0, 0}, {1, 0, 0}, 0},
    {"nothing follows reason 13", 0, 4, {0x00081ffc, 0, 0, 0}, {1, 0, 0, 0}, 0},
    {"nothing follows 13, with 7", 0, 5, {0x000c1ffc, 0, 0, 0, 0}, {1, 0, 0, 0, 0}, 0},
    {"13 in main alone", 2, 6, {0x16, 0x81ffc, 0, 0, 0, 0x20000}, {1, 1, 0, 0, 0, 2}, 1},
    {"13 inside alone", 2, 6, {0xa, 0x19, 0x81ffc, 0, 0, 0x20000}, {1, 1, 2, 0, 0, 0}, 2},
    {"13 in both states", 2, 5, {0x6, 0x81ffc, 0, 0, 0}, {1, 3, 0, 0, 0}, 1},
    {"13 where nothing leads", 0, 5, {0x20000010, 0x81ffc, 0, 0, 0}, {1, 0, 0, 0, 1}, NOWHERE},
    {"the word after a run up to 0x1ffc", 0, 4, {0x00081ff8, 0, 0, 0}, {1, 0, 0, 1}, NOWHERE},
    {"up to 0x1ffc inside", 2, 6, {0xa, 0x19, 0x81ff8, 0, 0, 0x20000}, {1, 1, 2, 0, 0, 2}, NOWHERE},
    {"a non-increasing run at 0x1ffc", 1, 4, {0x40081ffc, 0, 0, 0}, {1, 0, 0, 1}, NOWHERE},
    {"nothing follows reason 10", 0, 2, {0x2000000c, 0}, {1, 0}, 0},
    {"a call with 10 reaches neither", 2, 2, {0x0000000e, 0}, {1, 0}, 0},
    {"a jump is no reason 12 here", 0, 2, {0x20000004, 0}, {1, 1}, NOWHERE},
    {"nothing follows reason 12", 2, 2, {0x00000006, 0}, {1, 3}, 1},
    {"a call with 12 reaches neither", 2, 2, {0x0000000a, 0}, {1, 0}, 0},
    {"a parameter that is reached", 0, 3, {0x00040100, 0x20000004, 0x20000004}, {1, 1, 1}, 0},
    {"a parameter that is reached", 2, 3, {0x00040100, 0x00020000, 0x00000006}, {1, 2, 1}, 0},
    {"the lowest bad place", 2, 3, {0x0000000a, 3, 3}, {1, 1, 2}, 1},
};

static void test_path_rows(void)
{
    for (size_t i = 0; i < sizeof path_rows / sizeof path_rows[0]; i++) {
        const struct path_row *row = &path_rows[i];
        bool is_bad = row->place != NOWHERE;
        struct row words = {row->sentence, row->level, 0, row->count, {0}, {0}, 0, 0};
        struct submission submission;
        struct judgement judgement;
        struct path path;

        memcpy(words.words, row->words, sizeof words.words);
        give_row(&words);
        path = give_exact_map(&given);
        submission = lend();
        judgement = model_judge(&submission);
        check(memcmp(given.map, row->map, row->count) == 0, row->sentence, row->level, judgement);
        check(path.is_bad == is_bad, row->sentence, row->level, judgement);
        check(path.place == (is_bad ? row->place : 0), row->sentence, row->level, judgement);
    }
}

/* H2, H3: reason 8 needs a permit list of its own. */
static void test_path_permit(void)
{
    static const uint32_t words[] = {0x0004e100, 0, 0};
    struct path path;

    for (unsigned i = 0; i < 2; i++) {
        set_count(&given, 3);
        given.level = 0;
        given.sli = 0;
        fill_permit(&given, 0);
        given.permit[256 * 7 + 0x100 / 32] = (uint8_t)i;
        for (uint32_t j = 0; j < 3; j++)
            set_word(&given, j, words[j]);
        path = give_exact_map(&given);
        check(path.is_bad == (i == 0) && given.map[2] == i, "nothing follows reason 8", 0,
              (struct judgement){0});
    }
}

/* ---- Methods ---- */

/* One run and its parameters, nothing permitted. The method is a number. */
static void give_run(uint32_t level, uint32_t form, uint32_t count, uint32_t subchannel, uint32_t method)
{
    given.level = level;
    given.sli = 0;
    set_count(&given, 1 + count);
    memset(given.words, 0xff, given.words_length);
    memset(given.map, 0, given.map_length);
    set_word(&given, 0, form | count << 18 | subchannel << 13 | method << 2);
    given.map[0] = STATE_MAIN;
    fill_permit(&given, 0);
}

/* G8, G23, G24: the bit of a method alone, then all but that one. */
static void test_permit_bits(void)
{
    static const uint32_t methods[] = {0, 64, 65, 71, 72, 127, 1000, 2040, 2046, 2047};

    for (uint32_t subchannel = 0; subchannel < 8; subchannel++)
        for (unsigned i = 0; i < sizeof methods / sizeof methods[0]; i++) {
            uint32_t byte = 256 * subchannel + methods[i] / 8;
            uint8_t bit = (uint8_t)(1 << methods[i] % 8);

            give_run(0, 0, 1, subchannel, methods[i]);
            gives_reason("no bit is set", REASON_PERMIT, 0, 0);
            given.permit[byte] = bit;
            gives_reason("its bit is set", REASON_NONE, 1, 0);
            fill_permit(&given, 0xff);
            given.permit[byte] ^= bit;
            gives_reason("its bit alone is clear", REASON_PERMIT, ALL_PERMITTED - 1, 0);
        }
}

/* G7, G8, G13, G26, G29: runs from 0x1ffc on, whatever the level has and the list permits. */
static void test_wrap(void)
{
    for (uint32_t subchannel = 0; subchannel < 8; subchannel++) {
        give_run(0, 0, 2, subchannel, 2047);
        gives_reason("13 comes before 8", REASON_WRAPS, 0, 0);
        given.permit[256 * subchannel + 255] = 0x80;
        gives_reason("past the last method, to one that is not permitted", REASON_WRAPS, 1, 0);
        given.permit[256 * subchannel] = 0x01;
        gives_reason("past the last method, to one that is permitted", REASON_WRAPS, 2, 0);
        give_run(5, 0, 3, subchannel, 2047);
        fill_permit(&given, 0xff);
        gives_reason("past the last method, to one that is lacking", REASON_WRAPS, ALL_PERMITTED, 0);
        give_run(0, 0, 1, subchannel, 2047);
        gives_reason("the last method, not permitted", REASON_PERMIT, 0, 0);
        given.permit[256 * subchannel + 255] = 0x80;
        gives_reason("the last method, permitted", REASON_NONE, 1, 0);
        give_run(1, 0x40000000, 3, subchannel, 2047);
        given.permit[256 * subchannel + 255] = 0x80;
        gives_reason("a non-increasing method stays", REASON_NONE, 1, 0);
    }
}

/* G13: the last method of a run by itself, of every method and count near the border. */
static void test_last_methods(void)
{
    for (uint32_t method = 2030; method < 2048; method++)
        for (uint32_t count = 0; count <= 20; count++) {
            bool is_past = count != 0 && method + (count - 1) > 2047;
            uint32_t reason = is_past ? REASON_WRAPS : REASON_NONE;

            give_run(1, 0, count, 4, method);
            fill_permit(&given, 0xff);
            gives_reason("increasing, near the last", reason, ALL_PERMITTED, 0);
            give_run(1, 0x40000000, count, 4, method);
            fill_permit(&given, 0xff);
            gives_reason("non-increasing, near the last", REASON_NONE, ALL_PERMITTED, 0);
        }
}

/* G8, G26: 7 of the second parameter comes before 8 of the first, and 8 before 9. */
static void test_method_order(void)
{
    give_run(0, 0, 2, 3, 0);
    gives_reason("7 comes before 8", REASON_NON_CACHE, 0, 0);
    give_run(0, 0, 1, 3, 0);
    gives_reason("7 comes before 8", REASON_PERMIT, 0, 0);
    give_run(0, 0, 2, 3, 64);
    given.map[1] = STATE_MAIN;
    gives_reason("8 comes before 9", REASON_PERMIT, 0, 0);
    given.permit[256 * 3 + 8] = 0x03;
    gives_reason("8 comes before 9", REASON_MARKED, 2, 0);
}

/* W18, G7: every method up to 0x100, with the first level that has it, 6 where none does. */
static void test_specials(void)
{
    static const struct {
        uint32_t first;
        uint32_t last;
        uint32_t level;
    } specials[] = {
        {0x00, 0x00, 0}, {0x04, 0x0c, 6}, {0x10, 0x24, 5},   {0x28, 0x4c, 6},
        {0x50, 0x50, 1}, {0x54, 0x5c, 6}, {0x60, 0x6c, 2},   {0x70, 0x7c, 6},
        {0x80, 0x80, 3}, {0x84, 0xfc, 6}, {0x100, 0x100, 0},
    };

    for (unsigned i = 0; i < sizeof specials / sizeof specials[0]; i++)
        for (uint32_t method = specials[i].first; method <= specials[i].last; method += 4)
            for (uint32_t level = 0; level <= 5; level++) {
                bool is_present = level >= specials[i].level;

                give_run(level, 0, 1, 2, method / 4);
                fill_permit(&given, 0xff);
                gives_reason("methods by the level", is_present ? REASON_NONE : REASON_NON_CACHE,
                             ALL_PERMITTED, 0);
            }
}

/* G6, G8, G9, G29: the most parameters that a command has, of one method, and of all from 0x100 on. */
static void test_long_runs(void)
{
    give_run(1, 0x40000000, 2047, 7, 2047);
    given.permit[2047] = 0x80;
    gives_reason("2,047 parameters", REASON_NONE, 1, 0);
    set_count(&given, 2047);
    gives_reason("2,047 parameters, one past the end", REASON_PARAMETERS, 1, 0);
    set_count(&given, 2048);
    given.map[2047] = STATE_SUBROUTINE;
    gives_reason("the last of 2,047 parameters marked", REASON_MARKED, 1, 0);
    for (uint32_t method = 64; method < METHODS; method++) {
        give_run(0, 0, METHODS - 64, 5, 64);
        memset(given.permit + 256 * 5 + 8, 0xff, 248);
        gives_reason("all methods from 0x100 on", REASON_NONE, METHODS - 64, 0);
        set_permit(&given, 5, method, false);
        gives_reason("all but one", REASON_PERMIT, METHODS - 64 - 1, 0);
    }
}

/* G6, G7, G13, G26, G29: as many parameters as there are methods from one on, and one more. Of the methods
 * below 0x100 no level has all, so that a run of them has 7 where it doesn't have 13. */
static void test_long_wraps(void)
{
    static const struct {
        uint32_t method;
        uint32_t count;
        uint32_t reason;
    } runs[] = {{0, 2047, REASON_NON_CACHE}, {1, 2047, REASON_NON_CACHE}, {2, 2047, REASON_WRAPS},
                {2, 2046, REASON_NON_CACHE}, {3, 2046, REASON_WRAPS},     {64, 1984, REASON_NONE},
                {64, 1985, REASON_WRAPS},    {65, 1983, REASON_NONE},     {65, 1984, REASON_WRAPS},
                {1024, 1024, REASON_NONE},   {1024, 1025, REASON_WRAPS},  {1025, 1024, REASON_WRAPS},
                {2047, 2047, REASON_WRAPS}};

    for (unsigned i = 0; i < sizeof runs / sizeof runs[0]; i++) {
        give_run(5, 0, runs[i].count, 6, runs[i].method);
        fill_permit(&given, 0xff);
        gives_reason("a long run", runs[i].reason, ALL_PERMITTED, 0);
        set_count(&given, runs[i].count);
        gives_reason("a long run, of which a word is missing", REASON_PARAMETERS, ALL_PERMITTED, 0);
    }
}

/* ---- A second reading, one condition at a time ---- */

/* G29: the number of the method that parameter i of a run goes to. */
static uint32_t method_at(struct reading command, uint32_t i)
{
    uint32_t method = command.value[2] / 4;

    return command.number == READING_INCREASING ? (method + i) % 2048 : method;
}

static bool is_lacking(const struct submission *submission, struct reading command, uint32_t i)
{
    return !model_present(submission->level, method_at(command, i));
}

/* G23: whether the bit of that method is clear. */
static bool is_forbidden(const struct submission *submission, struct reading command, uint32_t i)
{
    uint32_t method = method_at(command, i);

    return (submission->permit[256 * command.value[1] + method / 8] & 1 << method % 8) == 0;
}

/* The parameters of a place's command, and how many next pairs it has. */
static uint32_t parameters_of(uint32_t place)
{
    return is_run(&given, place) ? command_of(&given, place).value[0] : 0;
}

static unsigned next_count_of(uint32_t place)
{
    uint32_t number = command_of(&given, place).number;

    if (number == READING_RESERVED || number == READING_RETURN)
        return 0;
    return number == READING_CALL ? 2 : 1;
}

/* G27: its next pair i; a call's target is its first. */
static struct pair next_of(struct pair pair, unsigned i)
{
    uint32_t target = command_of(&given, pair.place).value[0] / 4;

    if (is_call(&given, pair.place))
        return i == 0 ? (struct pair){target, STATE_SUBROUTINE} : (struct pair){pair.place + 1, STATE_MAIN};
    if (is_jump(&given, pair.place))
        return (struct pair){target, pair.state};
    return (struct pair){pair.place + 1 + parameters_of(pair.place), pair.state};
}

/* G10, G11, G12, G28: whether a next pair gives one of the reasons 10, 11 and 12. */
static bool next_has(const struct submission *submission, struct pair next, uint32_t reason)
{
    size_t count = submission->map_length;

    switch (reason) {
    case 10:
        return next.place > count;
    case 12:
        return next.place == count && next.state == STATE_SUBROUTINE;
    default:
        return next.place < count && (submission->map[next.place] & next.state) == 0;
    }
}

/* G13: whether parameter i of a run comes after the one for the last method. */
static bool is_after_last(struct reading command, uint32_t i)
{
    return command.number == READING_INCREASING && i > 2047 - command.value[2] / 4;
}

/* G6, G7, G8, G9, G13: whether parameter i of a place's command gives it a reason, one of 6 to 9 or 13. */
static bool parameter_has(const struct submission *submission, uint32_t place, uint32_t i, uint32_t reason)
{
    struct reading command = command_of(&given, place);
    size_t at = (size_t)place + 1 + i;

    switch (reason) {
    case 6:
        return at >= submission->map_length;
    case 7:
        return is_lacking(submission, command, i);
    case 8:
        return is_forbidden(submission, command, i);
    case 13:
        return is_after_last(command, i);
    default:
        return at < submission->map_length && submission->map[at] != 0;
    }
}

/* G3, G4, G5: whether a pair has a reason, whatever others it has. */
static bool pair_has(const struct submission *submission, struct pair pair, uint32_t reason)
{
    bool has = false;

    switch (reason) {
    case 3:
        return command_of(&given, pair.place).number == READING_RESERVED;
    case 4:
        return is_call(&given, pair.place) && pair.state == STATE_SUBROUTINE;
    case 5:
        return command_of(&given, pair.place).number == READING_RETURN && pair.state == STATE_MAIN;
    case 6:
    case 7:
    case 8:
    case 9:
    case 13:
        for (uint32_t i = 0; i < parameters_of(pair.place); i++)
            has = has || parameter_has(submission, pair.place, i, reason);
        return has;
    default:
        for (unsigned i = 0; i < next_count_of(pair.place); i++)
            has = has || next_has(submission, next_of(pair, i), reason);
        return has;
    }
}

/* G26: the order at one pair. 11 may come last, as of a call's two next pairs only the first can have 10 or
 * 12. */
static const uint32_t reason_order[] = {3, 4, 5, 6, 13, 7, 8, 9, 10, 12, 11};

static uint32_t first_of_reasons(const struct submission *submission, struct pair pair)
{
    for (unsigned i = 0; i < sizeof reason_order / sizeof reason_order[0]; i++)
        if (pair_has(submission, pair, reason_order[i]))
            return reason_order[i];
    return REASON_NONE;
}

/* W20, W21, W22, W23, G21, G40: why a word that is reserved in NV04-style is so: those of the other mode and
 * the conditionals are told apart by their upper half, and of any other form that may not be used the level
 * is too low. */
static uint32_t why_by_conditions(uint32_t level, uint32_t word)
{
    if (word >> 16 == 3 && word % 4 == 0)
        return WHY_MODE;
    if (word >> 16 == 1 && word % 16 == 0)
        return level < 3 ? WHY_LEVEL : WHY_SLI;
    if (word % 4 == 1 || word % 4 == 2 || word == 0x00020000 || (word & 0xe0030003) == 0x40000000)
        return WHY_LEVEL;
    return WHY_FORM;
}

/* G24: the bits of the list, one at a time. */
static uint32_t count_permitted(const struct submission *submission)
{
    uint32_t count = 0;

    for (uint32_t i = 0; i < 8 * PERMIT_BYTES; i++)
        count += submission->permit[i / 8] >> i % 8 & 1;
    return count;
}

/* G1, G2, G25, G30, G40: the judgement of a submission that isn't refused. */
static struct judgement judge_by_conditions(const struct submission *submission)
{
    uint32_t permitted = count_permitted(submission);
    uint32_t count = word_count(&given);

    for (uint32_t place = 0; place < count; place++)
        if (submission->map[place] > 3)
            return (struct judgement){1, 0, 0, permitted, place};
    if (count != 0 && submission->map[0] % 2 == 0)
        return (struct judgement){2, 0, 0, permitted, 0};
    /* Pair i is the main one or the other of place i / 2. */
    for (uint32_t i = 0; i < 2 * count; i++) {
        struct pair pair = {i / 2, 1 + i % 2};
        uint32_t reason = first_of_reasons(submission, pair);
        uint32_t why = why_by_conditions(submission->level, word_of(&given, pair.place));

        if ((submission->map[pair.place] & pair.state) != 0 && reason != REASON_NONE)
            return (struct judgement){reason, 0, reason == 3 ? why : 0, permitted, pair.place};
    }
    return (struct judgement){0, 0, 0, permitted, 0};
}

/* H2: the reasons that don't look at a map. */
static bool stops_path(const struct submission *submission, struct pair pair)
{
    static const uint32_t reasons[] = {3, 4, 5, 6, 7, 8, 10, 12, 13};

    for (unsigned i = 0; i < sizeof reasons / sizeof reasons[0]; i++)
        if (pair_has(submission, pair, reasons[i]))
            return true;
    return false;
}

/* H2: marks what is reached from the pairs marked so far; whether there was something new. */
static bool reach_further(const struct submission *submission, uint8_t *map)
{
    uint32_t count = word_count(&given);
    bool is_more = false;

    for (uint32_t i = 0; i < 2 * count; i++) {
        struct pair pair = {i / 2, 1 + i % 2};

        if ((map[pair.place] & pair.state) == 0 || stops_path(submission, pair))
            continue;
        for (unsigned j = 0; j < next_count_of(pair.place); j++) {
            struct pair next = next_of(pair, j);

            if (next.place == count || (map[next.place] & next.state) != 0)
                continue;
            map[next.place] |= (uint8_t)next.state;
            is_more = true;
        }
    }
    return is_more;
}

/* H3, H4: bad by one of those reasons, or by what lies among the parameters. */
static bool is_bad_by_conditions(const struct submission *submission, const uint8_t *map, uint32_t place)
{
    for (uint32_t state = STATE_MAIN; state <= STATE_SUBROUTINE; state++)
        if ((map[place] & state) != 0 && stops_path(submission, (struct pair){place, state}))
            return true;
    if (map[place] == 0)
        return false;
    for (uint32_t i = 1; i <= parameters_of(place) && place + i < word_count(&given); i++)
        if (map[place + i] != 0)
            return true;
    return false;
}

/* H1, H2, H3, H4, H5: the path rule by conditions, over a map that is cleared first. */
static struct path path_by_conditions(const struct submission *submission, uint8_t *map)
{
    uint32_t count = word_count(&given);

    memset(map, 0, count);
    if (count != 0)
        map[0] = STATE_MAIN;
    while (reach_further(submission, map))
        continue;
    for (uint32_t place = 0; place < count; place++)
        if (is_bad_by_conditions(submission, map, place))
            return (struct path){true, place};
    return (struct path){false, 0};
}

/* ---- What must hold of any submission ---- */

enum { FEW_WORDS = 40 };

/* R28, G25, G26, G31, G40: the model's judgement, which the second reading gives too. */
static struct judgement test_judgement(void)
{
    struct submission submission = lend();
    struct judgement judgement = model_judge(&submission);
    uint32_t refusal = first_of_refusals();

    if (refusal != REFUSAL_NONE)
        check(same(judgement, (struct judgement){0, refusal, 0, 0, 0}), "refusals", given.level, judgement);
    else
        check(same(judgement, judge_by_conditions(&submission)), "the second reading", given.level,
              judgement);
    return judgement;
}

/* G29, G39: whether the parameters of a place's command, if it is an increasing one, go to methods that
 * stand one behind another, from its own on. */
static bool is_rising(uint32_t place)
{
    struct reading command = command_of(&given, place);

    if (command.number != READING_INCREASING)
        return true;
    for (uint32_t i = 0; i < command.value[0]; i++)
        if (method_at(command, i) != command.value[2] / 4 + i)
            return false;
    return true;
}

/* G39: the same of every command at a marked place. */
static bool are_rising(void)
{
    for (uint32_t place = 0; place < word_count(&given); place++)
        if (given.map[place] != 0 && !is_rising(place))
            return false;
    return true;
}

/* G33, G34, G35, G36, G37, G38, G39: what accepted words never do. */
static void test_accepted(struct draw *draw, struct judgement judgement)
{
    struct submission submission = lend();
    const char *breach;

    if (judgement.reason != REASON_NONE || judgement.refusal != REFUSAL_NONE)
        return;
    check(are_rising(), "runs that are accepted go from a method to the next", given.level, judgement);
    breach = run_breach(draw, &submission, 2000);
    check(breach == NULL, breach == NULL ? "accepted words" : breach, given.level, judgement);
}

/* H5, H6: with the exact map words are accepted unless a place is bad; else the reason is at the lowest of
 * them. */
static void test_exact_map(struct draw *draw)
{
    uint8_t map[FEW_WORDS];
    struct submission submission = lend();
    struct path wanted = path_by_conditions(&submission, map);
    struct path path = give_exact_map(&given);
    struct judgement judgement = test_judgement();

    check(path.is_bad == wanted.is_bad && path.place == wanted.place, "the path rule", given.level,
          judgement);
    check(memcmp(given.map, map, word_count(&given)) == 0, "the reached pairs", given.level, judgement);
    check(path.is_bad == (judgement.reason != REASON_NONE), "accepted if no place is bad", given.level,
          judgement);
    check(judgement.place == path.place, "the lowest bad place", given.level, judgement);
    test_accepted(draw, judgement);
}

/* H7: words that are accepted with whatever map have no bad place. */
static void test_submission(struct draw *draw)
{
    uint8_t map[FEW_WORDS];
    struct submission submission = lend();
    struct judgement judgement = test_judgement();

    test_accepted(draw, judgement);
    if (judgement.refusal != REFUSAL_NONE)
        return;
    check(judgement.reason != REASON_NONE || !path_by_conditions(&submission, map).is_bad,
          "accepted words have no bad place", given.level, judgement);
    test_exact_map(draw);
}

static uint32_t draw_size(struct draw *draw)
{
    return draw_below(draw, FEW_WORDS - 1);
}

static void test_drawn(struct draw *draw)
{
    struct judgement judgement;

    draw_sound(draw, &given, draw_size(draw));
    judgement = test_judgement();
    check(judgement.reason == REASON_NONE && judgement.refusal == REFUSAL_NONE, "sound words are accepted",
          given.level, judgement);
    test_submission(draw);
    draw_sound(draw, &given, draw_size(draw));
    damage(draw, &given, draw_below(draw, damage_count()));
    test_submission(draw);
    draw_sound(draw, &given, draw_size(draw));
    refuse(draw, &given);
    test_submission(draw);
    draw_wild(draw, &given, draw_size(draw));
    test_submission(draw);
}

/* ---- The program ---- */

int main(void)
{
    struct draw draw = {0x9a7e};

    test_refusals();
    test_sizes();
    test_rows();
    test_path_rows();
    test_path_permit();
    test_permit_bits();
    test_wrap();
    test_last_methods();
    test_method_order();
    test_specials();
    test_long_runs();
    test_long_wraps();
    for (unsigned i = 0; i < 2500; i++)
        test_drawn(&draw);
    printf("gate model: %" PRIu64 " checks\n", checks);
    return 0;
}

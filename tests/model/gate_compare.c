/* Compares the archive's gatekeeper with the model's on many submissions, short and long, sound, damaged,
 * wild and refused. What is lent to the archive ends where an unreadable page begins; lengths that no memory
 * has are lent there. Accepted words are run on the model's channel, and the map of exactly the reached pairs
 * has to be accepted exactly if no place is bad. The first difference is described and ends the run. */
#include <inttypes.h>
#include <signal.h>
#include <stdio.h>
#include <stdlib.h>
#include <string.h>

#include "compare.h"
#include "gate_draw.h"
#include "gate_run.h"
#include "upborliya.h"

enum { STEPS = 500, FEWEST = 500 };

const char comparison[] = "gate compare";

/* The header's numbers are the model's, and it leaves out no reason. */
#define SAME_NUMBER(header, model) _Static_assert((int)(header) == (int)(model), #header " is " #model)
SAME_NUMBER(UPBORLIYA_REASON_NONE, REASON_NONE);
SAME_NUMBER(UPBORLIYA_REASON_MAP_BYTE, REASON_MAP_BYTE);
SAME_NUMBER(UPBORLIYA_REASON_NO_START, REASON_START);
SAME_NUMBER(UPBORLIYA_REASON_RESERVED, REASON_RESERVED);
SAME_NUMBER(UPBORLIYA_REASON_CALL_INSIDE, REASON_CALL);
SAME_NUMBER(UPBORLIYA_REASON_RETURN_OUTSIDE, REASON_RETURN);
SAME_NUMBER(UPBORLIYA_REASON_SHORT, REASON_PARAMETERS);
SAME_NUMBER(UPBORLIYA_REASON_NON_CACHE, REASON_NON_CACHE);
SAME_NUMBER(UPBORLIYA_REASON_NOT_PERMITTED, REASON_PERMIT);
SAME_NUMBER(UPBORLIYA_REASON_MARKED_PARAMETER, REASON_MARKED);
SAME_NUMBER(UPBORLIYA_REASON_TARGET_PAST, REASON_TARGET);
SAME_NUMBER(UPBORLIYA_REASON_NOT_MARKED, REASON_UNMARKED);
SAME_NUMBER(UPBORLIYA_REASON_END_INSIDE, REASON_END);
SAME_NUMBER(UPBORLIYA_REASON_WRAPS, REASON_WRAPS);
SAME_NUMBER(UPBORLIYA_REASON_WRAPS + 1, REASON_COUNT);
SAME_NUMBER(UPBORLIYA_REFUSAL_NONE, REFUSAL_NONE);
SAME_NUMBER(UPBORLIYA_REFUSAL_LEVEL, REFUSAL_LEVEL);
SAME_NUMBER(UPBORLIYA_REFUSAL_SLI, REFUSAL_SLI);
SAME_NUMBER(UPBORLIYA_REFUSAL_SIZE, REFUSAL_SIZE);
SAME_NUMBER(UPBORLIYA_REFUSAL_LENGTH, REFUSAL_LENGTH);

/* The submission under way, and what the archive said of it once it has. */
static struct given given;
static bool is_answered;
static struct judgement archive;

/* What was counted so far. */
static struct {
    unsigned long submissions;
    unsigned long reasons[REASON_COUNT];
    unsigned long whys[WHY_COUNT];
    unsigned long refusals[REFUSAL_COUNT];
    unsigned long exact_maps;
    unsigned long runs;
    unsigned long vast;
} counts;

/* ---- Differences ---- */

static void print_judgement(const char *name, struct judgement judgement)
{
    fprintf(stderr, "%s: reason %" PRIu32 ", refusal %" PRIu32 ", why %" PRIu32, name, judgement.reason,
            judgement.refusal, judgement.why);
    fprintf(stderr, ", count %" PRIu32 ", place %" PRIu32 "\n", judgement.count, judgement.place);
}

/* Says what does not hold, describes the submission and ends the run. */
static void fail(const char *sentence)
{
    struct submission submission = submission_of(&given);

    fprintf(stderr, "%s: failed: %s\n", comparison, sentence);
    if (is_answered)
        print_judgement("archive", archive);
    print_judgement("model", model_judge(&submission));
    fprintf(stderr, "submission %lu: level %" PRIu32 ", SLI %" PRIu32 "\n", counts.submissions, given.level,
            given.sli);
    print_bytes("words", given.words, given.words_length, 4);
    print_bytes("map", given.map, given.map_length, 1);
    print_bytes("permit list", given.permit, given.permit_length, 1);
    exit(1);
}

static void fail_at_fault(int number)
{
    (void)number;
    fail("nothing is read or written that is not lent");
}

/* ---- Lent memory ---- */

/* The ends of the rooms for words, map and permit list, each the start of an unreadable page. */
static struct {
    uint8_t *words;
    uint8_t *map;
    uint8_t *permit;
} ends;

static void make_rooms(void)
{
    ends.words = make_room(sizeof given.words);
    ends.map = make_room(sizeof given.map);
    ends.permit = make_room(sizeof given.permit);
}

/* ---- One submission ---- */

/* G32: the parts of the answer, by the header's functions: between them they have all of its bits. */
static struct judgement unpack(upborliya_answer answer)
{
    return (struct judgement){upborliya_reason(answer), upborliya_refusal(answer),
                              upborliya_reserved_why(answer), upborliya_count(answer), upborliya_place(answer)};
}

/* G32: the whole number by the rule's bits, without the header. */
static upborliya_answer packed(struct judgement judgement)
{
    return judgement.reason | (uint64_t)judgement.refusal << 8 | (uint64_t)judgement.why << 16 |
           (uint64_t)judgement.count << 24 | (uint64_t)judgement.place << 40;
}

static bool same(struct judgement a, struct judgement b)
{
    return a.reason == b.reason && a.refusal == b.refusal && a.why == b.why && a.count == b.count &&
           a.place == b.place;
}

static bool is_accepted(void)
{
    return archive.reason == REASON_NONE && archive.refusal == REFUSAL_NONE;
}

/* R31: asks the archive, which has to leave alone what it is lent, refused or not. */
static upborliya_answer ask(void)
{
    const uint8_t *words = lend(ends.words, given.words, given.words_length, counts.submissions);
    const uint8_t *map = lend(ends.map, given.map, given.map_length, counts.submissions);
    const uint8_t *permit = lend(ends.permit, given.permit, given.permit_length, counts.submissions);
    upborliya_answer answer;

    is_answered = false;
    answer = upborliya_judge(given.level, given.sli, words, given.words_length, map, given.map_length,
                             permit, given.permit_length);
    archive = unpack(answer);
    is_answered = true;
    if (!is_kept(words, given.words, given.words_length) || !is_kept(map, given.map, given.map_length) ||
        !is_kept(permit, given.permit, given.permit_length))
        fail("nothing is written");
    return answer;
}

/* G31, G32, G40: the archive's judgement has to be the model's, by its parts and as a number. */
static void compare(void)
{
    struct submission submission = submission_of(&given);
    upborliya_answer answer = ask();

    if (!same(archive, model_judge(&submission)))
        fail("the archive's judgement is the model's");
    if (answer != packed(archive))
        fail("each part of the answer has its bits");
    counts.submissions++;
    counts.whys[archive.why]++;
    if (archive.refusal == REFUSAL_NONE)
        counts.reasons[archive.reason]++;
    else
        counts.refusals[archive.refusal]++;
}

/* G33, G34, G35, G36, G37, G39: runs accepted words on the model's channel. */
static void run(struct draw *draw)
{
    struct submission submission = submission_of(&given);
    const char *breach;

    if (!is_accepted())
        return;
    breach = run_breach(draw, &submission, STEPS);
    if (breach != NULL)
        fail(breach);
    counts.runs++;
}

/* H5, H6: the submission as it is, then, if it isn't refused, with the map of exactly the reached pairs. */
static void test_submission(struct draw *draw)
{
    struct path path;

    compare();
    run(draw);
    if (archive.refusal != REFUSAL_NONE)
        return;
    path = give_exact_map(&given);
    compare();
    if (is_accepted() == path.is_bad)
        fail("the exact map is accepted exactly if no place is bad");
    if (archive.place != path.place)
        fail("the exact map has its reason at the lowest bad place");
    counts.exact_maps++;
    run(draw);
}

/* ---- Submissions ---- */

/* Null pointers for each of the three, and for several at once: each length is 0 or a good one, and each
 * submission is made twice. */
static void test_nulls(void)
{
    for (unsigned i = 0; i < 2 * 8 * 6; i++) {
        given.level = i / 16;
        given.sli = given.level >= 3;
        set_count(&given, 1);
        set_word(&given, 0, 0);
        given.map[0] = STATE_MAIN;
        fill_permit(&given, 0x11);
        if ((i & 2) != 0)
            given.words_length = 0;
        if ((i & 4) != 0)
            given.map_length = 0;
        if ((i & 8) != 0)
            given.permit_length = 0;
        compare();
    }
}

/* So many words: wild ones in a quarter of all cases, else sound, of which half are damaged, at times more
 * than once; some are refused. */
static void test_drawn(struct draw *draw, uint32_t size)
{
    uint32_t kind = draw_below(draw, 8);

    if (kind < 2)
        draw_wild(draw, &given, size);
    else
        draw_sound(draw, &given, size);
    for (bool more = kind >= 5; more; more = draw_once_in(draw, 4))
        damage(draw, &given, draw_below(draw, damage_count()));
    if (draw_once_in(draw, 12))
        refuse(draw, &given);
    test_submission(draw);
}

/* Words that are all the same, with the same mark. */
static void give_uniform(uint32_t size, uint32_t word, uint8_t mark)
{
    given.level = 5;
    given.sli = 1;
    set_count(&given, size);
    fill_permit(&given, 0xff);
    memset(given.map, mark, given.map_length);
    for (uint32_t i = 0; i < size; i++)
        set_word(&given, i, word);
}

/* R8, G13: as many words as there can be: count 0, conditionals, the longest run up to 0x1ffc, one past it,
 * the longest non-increasing one, old jumps to place 0, to the last place and to the one before. */
static void test_uniforms(struct draw *draw)
{
    static const uint32_t words[] = {0x00000000, 0x00010010, 0x1f000100, 0x1ffc0100,
                                     0x5ffc0100, 0x20000000, 0x203ffffc, 0x203ffff8};

    for (unsigned i = 0; i < sizeof words / sizeof words[0]; i++)
        for (uint8_t mark = STATE_MAIN; mark <= STATE_BOTH; mark++) {
            give_uniform(SIZE_LIMIT, words[i], mark);
            test_submission(draw);
        }
}

/* R8, R9, R28: lengths at and around the most that may be lent, part words too. */
static void test_sizes(void)
{
    for (size_t length = 4 * SIZE_LIMIT - 4; length <= 4 * SIZE_LIMIT + 8; length++) {
        give_uniform(SIZE_LIMIT + 2, 0x00000000, STATE_MAIN);
        given.words_length = length;
        given.map_length = length / 4;
        compare();
    }
}

/* ---- Lengths that no memory has ---- */

/* The submission under way. Nothing can be read at its pointers, and one of its lengths has more than 32
 * bits. */
static struct submission vast;

static void fail_vast(const char *sentence)
{
    fprintf(stderr, "%s: failed: %s\n", comparison, sentence);
    fprintf(stderr, "level %" PRIu32 ", SLI %" PRIu32 "; words of %zu bytes, map of %zu, list of %zu\n",
            vast.level, vast.sli, vast.words_length, vast.map_length, vast.permit_length);
    exit(1);
}

static void fail_vast_at_fault(int number)
{
    (void)number;
    fail_vast("a submission that is refused is not read");
}

/* R28: the gatekeeper's order. The length that has more than 32 bits is wrong, whichever it is. */
static uint32_t vast_refusal(void)
{
    if (vast.level > 5)
        return REFUSAL_LEVEL;
    if (vast.sli != 0 && vast.level < 3)
        return REFUSAL_SLI;
    return vast.words_length > 4 * (size_t)SIZE_LIMIT ? REFUSAL_SIZE : REFUSAL_LENGTH;
}

/* The archive refuses by the table, and so does the model. */
static void compare_vast(void)
{
    struct judgement wanted = {REASON_NONE, vast_refusal(), WHY_NONE, 0, 0};
    upborliya_answer answer =
        upborliya_judge(vast.level, vast.sli, vast.words, vast.words_length, vast.map, vast.map_length,
                        vast.permit, vast.permit_length);

    if (answer != packed(wanted))
        fail_vast("a length that no memory has is refused by the table");
    if (!same(model_judge(&vast), wanted))
        fail_vast("the model refuses such a length by the table");
    counts.vast++;
}

/* Lengths of which 32 bits would be a good one: those of two words, their map and a permit list. */
#define WIDE ((size_t)1 << 32)
static const size_t words_lengths[] = {0, 8, WIDE, WIDE + 8, SIZE_MAX};
static const size_t map_lengths[] = {0, 2, WIDE, WIDE + 2, WIDE + 8, SIZE_MAX};
static const size_t permit_lengths[] = {0, PERMIT_BYTES, WIDE, WIDE + 8, WIDE + PERMIT_BYTES, SIZE_MAX};

enum {
    WORDS_LENGTHS = sizeof words_lengths / sizeof words_lengths[0],
    MAP_LENGTHS = sizeof map_lengths / sizeof map_lengths[0],
    PERMIT_LENGTHS = sizeof permit_lengths / sizeof permit_lengths[0]
};

/* R8, R9: each length alone and with the others, at this level and SLI setting. */
static void test_vast_lengths(uint32_t level, uint32_t sli)
{
    vast = (struct submission){level, sli, ends.words, 0, ends.map, 0, ends.permit, 0};
    for (unsigned i = 0; i < WORDS_LENGTHS * MAP_LENGTHS * PERMIT_LENGTHS; i++) {
        vast.words_length = words_lengths[i % WORDS_LENGTHS];
        vast.map_length = map_lengths[i / WORDS_LENGTHS % MAP_LENGTHS];
        vast.permit_length = permit_lengths[i / WORDS_LENGTHS / MAP_LENGTHS];
        if (vast.words_length >= WIDE || vast.map_length >= WIDE || vast.permit_length >= WIDE)
            compare_vast();
    }
}

static void test_vast(void)
{
    void (*before)(int) = signal(SIGSEGV, fail_vast_at_fault);

    for (uint32_t level = 0; level <= 6; level++)
        for (uint32_t sli = 0; sli <= 1; sli++)
            test_vast_lengths(level, sli);
    signal(SIGSEGV, before);
}

/* ---- The program ---- */

static void print_summary(void)
{
    printf("%s: %lu submissions, %lu of them with an exact map, %lu accepted, %lu runs\n", comparison,
           counts.submissions, counts.exact_maps, counts.reasons[REASON_NONE], counts.runs);
    printf("lengths of more than 32 bits: %lu submissions\n", counts.vast);
    printf("reasons:");
    for (unsigned i = 1; i < REASON_COUNT; i++)
        printf(" %u=%lu", i, counts.reasons[i]);
    printf("\nwhys:");
    for (unsigned i = 1; i < WHY_COUNT; i++)
        printf(" %u=%lu", i, counts.whys[i]);
    printf("\nrefusals:");
    for (unsigned i = 1; i < REFUSAL_COUNT; i++)
        if (counts.refusals[i] != 0)
            printf(" %u=%lu", i, counts.refusals[i]);
    putchar('\n');
}

/* Each of these numbers was given often enough. */
static void test_given(const char *name, const unsigned long *given_times, unsigned count)
{
    for (unsigned i = 1; i < count; i++)
        if (given_times[i] < FEWEST) {
            fprintf(stderr, "%s: failed: %s %u was given %lu times, wanted %d\n", comparison, name, i,
                    given_times[i], FEWEST);
            exit(1);
        }
}

/* What was drawn gave each reason and each why often enough for its comparison to mean something. */
static void test_counts(void)
{
    test_given("reason", counts.reasons, REASON_COUNT);
    test_given("why", counts.whys, WHY_COUNT);
}

int main(void)
{
    struct draw draw = {0xc0de};

    make_rooms();
    signal(SIGSEGV, fail_at_fault);
    test_nulls();
    test_vast();
    for (unsigned i = 0; i < 60000; i++)
        test_drawn(&draw, draw_below(&draw, 65));
    for (unsigned i = 0; i < 200; i++)
        test_drawn(&draw, draw_below(&draw, 6000));
    for (unsigned i = 0; i < 5; i++)
        test_drawn(&draw, SIZE_LIMIT);
    test_uniforms(&draw);
    test_sizes();
    print_summary();
    test_counts();
    return 0;
}

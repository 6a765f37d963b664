/* Compares the archive's repair with the model's on many submissions, short and long, sound, damaged, wild,
 * tangled and refused, and its readings for C. All that is lent to the archive, its rooms too, ends where an
 * unreadable page begins; lengths that no memory has are lent there. Map, list and work room have to be the
 * model's to the last entry, and the archive's gatekeeper has to accept the map that comes out exactly if no
 * place is bad. The first difference is described and ends the run. */
#include <inttypes.h>
#include <signal.h>
#include <stdio.h>
#include <stdlib.h>
#include <string.h>

#include "compare.h"
#include "gate_draw.h"
#include "pattern.h"
#include "repair.h"
#include "upborliya.h"

enum { FEWEST = 200 };

const char comparison[] = "repair compare";

/* The header's numbers are the model's, and it leaves out no why. */
#define SAME_NUMBER(header, model) _Static_assert((int)(header) == (int)(model), #header " is " #model)
SAME_NUMBER(UPBORLIYA_REFUSAL_MODE, REFUSAL_MODE);
SAME_NUMBER(UPBORLIYA_REFUSAL_ROOM, REFUSAL_ROOM);
SAME_NUMBER(UPBORLIYA_FORM_INCREASING, READING_INCREASING);
SAME_NUMBER(UPBORLIYA_FORM_NON_INCREASING, READING_NON_INCREASING);
SAME_NUMBER(UPBORLIYA_FORM_SLI, READING_SLI);
SAME_NUMBER(UPBORLIYA_FORM_RETURN, READING_RETURN);
SAME_NUMBER(UPBORLIYA_FORM_LONG, READING_LONG);
SAME_NUMBER(UPBORLIYA_FORM_OLD_JUMP, READING_OLD_JUMP);
SAME_NUMBER(UPBORLIYA_FORM_JUMP, READING_JUMP);
SAME_NUMBER(UPBORLIYA_FORM_CALL, READING_CALL);
SAME_NUMBER(UPBORLIYA_FORM_RESERVED, READING_RESERVED);
SAME_NUMBER(UPBORLIYA_FORM_REFUSED, READING_REFUSED);
SAME_NUMBER(UPBORLIYA_WHY_NONE, WHY_NONE);
SAME_NUMBER(UPBORLIYA_WHY_FORM, WHY_FORM);
SAME_NUMBER(UPBORLIYA_WHY_LEVEL, WHY_LEVEL);
SAME_NUMBER(UPBORLIYA_WHY_MODE, WHY_MODE);
SAME_NUMBER(UPBORLIYA_WHY_SLI, WHY_SLI);
SAME_NUMBER(UPBORLIYA_WHY_SLI + 1, WHY_COUNT);

/* The most entries of the two rooms. */
enum { LIST_ROOM = REPAIR_LIMIT + 64, WORK_ROOM = 2 * LIST_ROOM };

/* So many bytes before the map, and entries before a room, are looked at too. */
enum { GUARD = 4, GUARD_BYTE = 0xa5 };

/* The submission under way; its map stays as it was. */
static struct given given;

/* What the model makes of it. */
static struct {
    uint8_t map[WORDS_ROOM];
    uint64_t list[LIST_ROOM];
    size_t list_length;
    uint64_t work[WORK_ROOM];
    size_t work_length;
    struct outcome outcome;
} model;

/* What the archive is lent, and answers. */
static struct {
    uint8_t *words;
    uint8_t *map;
    uint8_t *permit;
    uint64_t *list;
    uint64_t *work;
    upborliya_answer answer;
} archive;

/* What was counted so far. */
static struct {
    unsigned long submissions;
    unsigned long refusals[REFUSAL_COUNT];
    unsigned long changed;
    unsigned long changes;
    unsigned long accepted;
    unsigned long bad;
    unsigned long vast;
    unsigned long readings[READING_PAST];
    unsigned long whys[WHY_COUNT];
} counts;

/* ---- Differences ---- */

/* Says what does not hold, describes the submission and ends the run. */
static void fail(const char *sentence)
{
    fprintf(stderr, "%s: failed: %s\n", comparison, sentence);
    fprintf(stderr, "archive: 0x%016" PRIx64 "\nmodel: 0x%016" PRIx64 "\n", archive.answer,
            model_repair_number(model.outcome));
    fprintf(stderr, "submission %lu: level %" PRIu32 ", SLI %" PRIu32 ", rooms of %zu and %zu entries\n",
            counts.submissions, given.level, given.sli, model.list_length, model.work_length);
    print_bytes("words", given.words, given.words_length, 4);
    print_bytes("map", given.map, given.map_length, 1);
    print_bytes("permit list", given.permit, given.permit_length, 1);
    print_bytes("the model's map", model.map, given.map_length, 1);
    print_bytes("the archive's map", archive.map, given.map_length, 1);
    print_bytes("the model's list", (const uint8_t *)model.list, 8 * model.list_length, 8);
    print_bytes("the archive's list", (const uint8_t *)archive.list, 8 * model.list_length, 8);
    print_bytes("the archive's work room", (const uint8_t *)archive.work, 8 * model.work_length, 8);
    exit(1);
}

static void fail_at_fault(int number)
{
    (void)number;
    fail("nothing is read or written that is not lent");
}

/* ---- Lent memory ---- */

/* The ends of all rooms, each the start of an unreadable page. */
static struct {
    uint8_t *words;
    uint8_t *map;
    uint8_t *permit;
    uint8_t *list;
    uint8_t *work;
} ends;

static void make_rooms(void)
{
    ends.words = make_room(sizeof given.words);
    ends.map = make_room(sizeof given.map);
    ends.permit = make_room(sizeof given.permit);
    ends.list = make_room(sizeof model.list);
    ends.work = make_room(sizeof model.work);
}

/* So many entries at the end of a room, none of them touched. Every other turn memory of length 0 is lent by
 * a null pointer. */
static uint64_t *lend_entries(uint8_t *end, size_t length)
{
    uint64_t *room = (uint64_t *)(void *)end - length;

    if (length == 0 && counts.submissions % 2 == 0)
        return NULL;
    fill_room(room - GUARD, length + GUARD);
    return room;
}

/* ---- One submission ---- */

/* What the model makes of the submission, in rooms of so many entries. */
static void ask_model(size_t list_length, size_t work_length)
{
    struct repair repair = {given.level, given.sli,        given.words,  given.words_length,
                            model.map,   given.map_length, given.permit, given.permit_length,
                            model.list,  list_length,      model.work,   work_length};

    memcpy(model.map, given.map, given.map_length);
    fill_room(model.list, list_length);
    fill_room(model.work, work_length);
    model.list_length = list_length;
    model.work_length = work_length;
    model.outcome = model_repair(&repair);
}

/* The archive repairs a copy, in rooms that are as long as the model's, and said to be of so many entries.
 */
static void ask_archive(size_t list_length, size_t work_length)
{
    unsigned long turn = counts.submissions;

    archive.words = lend(ends.words, given.words, given.words_length, turn);
    archive.map = lend(ends.map, given.map, given.map_length, turn);
    archive.permit = lend(ends.permit, given.permit, given.permit_length, turn);
    if (archive.map != NULL)
        memset(archive.map - GUARD, GUARD_BYTE, GUARD);
    archive.list = lend_entries(ends.list, model.list_length);
    archive.work = lend_entries(ends.work, model.work_length);
    archive.answer = upborliya_repair(given.level, given.sli, archive.words, given.words_length, archive.map,
                                      given.map_length, archive.permit, given.permit_length, archive.list,
                                      list_length, archive.work, work_length);
}

static bool are_same(const uint64_t *a, const uint64_t *b, size_t length)
{
    return length == 0 || memcmp(a, b, length * sizeof a[0]) == 0;
}

/* Whether what lies before the map and the rooms is as it was. */
static bool is_guarded(void)
{
    bool good = true;

    for (int i = 1; i <= GUARD; i++) {
        good = good && (archive.map == NULL || archive.map[-i] == GUARD_BYTE);
        good = good && (archive.list == NULL || archive.list[-i] == UNTOUCHED);
        good = good && (archive.work == NULL || archive.work[-i] == UNTOUCHED);
    }
    return good;
}

/* R31, R37, H12, H13, H14, H18: the answer, and all that may be written. */
static void compare_written(void)
{
    if (archive.answer != model_repair_number(model.outcome))
        fail("the archive's answer is the model's");
    if (!is_kept(archive.words, given.words, given.words_length) ||
        !is_kept(archive.permit, given.permit, given.permit_length))
        fail("words and permit list are only read");
    if (!is_kept(archive.map, model.map, given.map_length))
        fail("the archive's map is the model's");
    if (!are_same(archive.list, model.list, model.list_length))
        fail("the archive's list is the model's");
    if (!are_same(archive.work, model.work, model.work_length))
        fail("the archive's work room is the model's");
    if (!is_guarded())
        fail("nothing before map or rooms is written");
}

/* H13, H18: the answer and the list by the header's functions. The repair says no why. */
static void compare_parts(void)
{
    uint32_t place = 0;

    if (upborliya_refusal(archive.answer) != model.outcome.refusal ||
        upborliya_count(archive.answer) != model.outcome.count ||
        upborliya_reserved_why(archive.answer) != WHY_NONE)
        fail("the header takes the answer apart");
    for (uint32_t i = 0; i < model.outcome.count; i++, place++) {
        while (given.map[place] == model.map[place])
            place++;
        if (upborliya_change_place(archive.list[i]) != place ||
            upborliya_change_old(archive.list[i]) != given.map[place] ||
            upborliya_change_new(archive.list[i]) != model.map[place])
            fail("the header takes a change apart");
    }
}

/* H15: what the archive's gatekeeper says of the map that came out. */
static void judge_repaired(void)
{
    static uint8_t exact[REPAIR_LIMIT];
    static struct pair room[2 * REPAIR_LIMIT];
    struct submission submission = submission_of(&given);
    struct path path = model_path(&submission, exact, room);
    upborliya_answer answer =
        upborliya_judge(given.level, given.sli, archive.words, given.words_length, archive.map,
                        given.map_length, archive.permit, given.permit_length);
    bool is_accepted = upborliya_reason(answer) == 0 && upborliya_refusal(answer) == 0;

    if (is_accepted == path.is_bad)
        fail("the repaired map is accepted exactly if no place is bad");
    if (upborliya_place(answer) != path.place)
        fail("the repaired map has its reason at the lowest bad place");
    if (is_accepted)
        counts.accepted++;
    else
        counts.bad++;
}

/* H16: the map that came out is repaired again, in the same rooms. */
static void repair_again(void)
{
    upborliya_answer answer =
        upborliya_repair(given.level, given.sli, archive.words, given.words_length, archive.map,
                         given.map_length, archive.permit, given.permit_length, archive.list,
                         model.list_length, archive.work, model.work_length);

    if (answer != 0)
        fail("repaired again, nothing changes");
    compare_written();
}

static void compare(size_t list_length, size_t work_length)
{
    ask_model(list_length, work_length);
    ask_archive(list_length, work_length);
    compare_written();
    compare_parts();
    counts.submissions++;
    counts.refusals[model.outcome.refusal]++;
    if (model.outcome.refusal != REFUSAL_NONE)
        return;
    counts.changed += model.outcome.count != 0;
    counts.changes += model.outcome.count;
    judge_repaired();
    if (model.outcome.count == 0)
        repair_again();
}

/* H16: as it is; then, where that is not refused, with the map that came out. */
static void compare_twice(size_t list_length, size_t work_length)
{
    compare(list_length, work_length);
    if (model.outcome.refusal != REFUSAL_NONE || model.outcome.count == 0)
        return;
    memcpy(given.map, model.map, given.map_length);
    compare(list_length, work_length);
    if (archive.answer != 0)
        fail("repaired again, nothing is listed");
}

/* ---- Submissions ---- */

/* Null pointers for each of the five, and for several at once: each length is 0 or a good one, and each
 * submission is made twice. */
static void test_nulls(void)
{
    for (unsigned i = 0; i < 2 * 32 * 6; i++) {
        given.level = i / 64;
        given.sli = given.level >= 3;
        set_count(&given, 1);
        set_word(&given, 0, 0);
        given.map[0] = 7;
        fill_permit(&given, 0x11);
        if ((i & 2) != 0)
            given.words_length = 0;
        if ((i & 4) != 0)
            given.map_length = 0;
        if ((i & 8) != 0)
            given.permit_length = 0;
        compare((i & 16) != 0 ? 0 : 1, (i & 32) != 0 ? 0 : 2);
    }
}

/* Rooms for the submission: those that are asked for, longer ones, or too short ones, mostly by one. */
static void test_rooms(struct draw *draw)
{
    uint32_t count = word_count(&given);
    uint32_t lists[] = {
        count, count, count, count, count, count + draw_below(draw, 30), count - (count > 0)};
    uint32_t works[] = {2 * count,
                        2 * count,
                        2 * count,
                        2 * count,
                        2 * count + 1,
                        2 * count + draw_below(draw, 60),
                        2 * count - (count > 0)};
    uint32_t list_length = draw_among(draw, lists, 7);
    uint32_t work_length = draw_among(draw, works, 7);

    if (draw_once_in(draw, 30))
        list_length = draw_below(draw, count + 1);
    if (draw_once_in(draw, 30))
        work_length = draw_below(draw, 2 * count + 1);
    compare_twice(list_length, work_length);
}

/* So many words: tangled and wild ones in half of all cases, else sound, of which half are damaged, at times
 * more than once; some with a map of any bytes, some refused. */
static void test_drawn(struct draw *draw, uint32_t size)
{
    uint32_t kind = draw_below(draw, 12);

    if (kind < 4)
        draw_tangle(draw, &given, size);
    else if (kind < 6)
        draw_wild(draw, &given, size);
    else
        draw_sound(draw, &given, size);
    for (bool more = kind >= 9; more; more = draw_once_in(draw, 4))
        damage(draw, &given, draw_below(draw, damage_count()));
    if (draw_once_in(draw, 4))
        draw_map(draw, &given);
    if (draw_once_in(draw, 12))
        refuse(draw, &given);
    test_rooms(draw);
}

/* Words that are all the same, with the same byte in the map. */
static void give_uniform(uint32_t size, uint32_t word, uint8_t byte)
{
    given.level = 5;
    given.sli = 1;
    set_count(&given, size);
    fill_permit(&given, 0xff);
    memset(given.map, byte, given.map_length);
    for (uint32_t place = 0; place < size; place++)
        set_word(&given, place, word);
}

/* R8, R11, R37, G13: as many words as there can be, and one more: count 0, conditionals, the longest run up
 * to 0x1ffc, one past it, the longest non-increasing one, jumps to place 0, to the last place and to the
 * end, a call of the last place; with rooms that fit or are one short. */
static void test_uniforms(void)
{
    static const uint32_t words[] = {0x00000000, 0x00010010, 0x1f000100, 0x1ffc0100, 0x5ffc0100,
                                     0x20000000, 0x20007ffc, 0x00008001, 0x00007ffe};

    for (unsigned i = 0; i < 9 * 3 * 2; i++) {
        uint32_t size = REPAIR_LIMIT + i / 27;

        give_uniform(size, words[i % 9], (uint8_t)(255 - i / 9 % 3 * 127));
        set_word(&given, size - 1, 0x00020000);
        compare_twice(size, 2 * size);
        compare(size - 1, 2 * size);
        compare(size, 2 * size - 1);
        compare(size + 9, 2 * size + 9);
    }
}

/* R8, R9, R37: lengths at and around the most that the repair takes, part words too. */
static void test_sizes(void)
{
    for (size_t length = 4 * REPAIR_LIMIT - 5; length <= 4 * REPAIR_LIMIT + 9; length++)
        for (size_t more = 0; more < 2; more++) {
            give_uniform(REPAIR_LIMIT + 4, 0x00000000, 255);
            given.words_length = length;
            given.map_length = length / 4;
            compare(length / 4 + more, length / 4 * 2);
        }
}

/* ---- Lengths that no memory has ---- */

#define WIDE ((size_t)1 << 32)

/* Lengths of which 32 bits, or what is left times 8, would be good ones: those of two words, with their map,
 * permit list and rooms. */
static const size_t vast_lengths[5][6] = {
    {0, 8, WIDE, WIDE + 8, SIZE_MAX - 7, SIZE_MAX},
    {0, 2, WIDE, WIDE + 2, WIDE + 8, SIZE_MAX},
    {0, PERMIT_BYTES, WIDE, WIDE + 8, WIDE + PERMIT_BYTES, SIZE_MAX},
    {0, 2, 1, WIDE + 2, SIZE_MAX / 8 + 3, SIZE_MAX},
    {0, 4, 3, WIDE + 4, SIZE_MAX / 8 + 5, SIZE_MAX},
};

/* The lengths under way: words, map, permit list, list, work room. Nothing can be read at their pointers. */
static struct {
    uint32_t level;
    uint32_t sli;
    size_t length[5];
} vast;

static void fail_vast(const char *sentence)
{
    fprintf(stderr, "%s: failed: %s\n", comparison, sentence);
    fprintf(stderr, "level %" PRIu32 ", SLI %" PRIu32 "; words of %zu bytes, map of %zu, list of %zu",
            vast.level, vast.sli, vast.length[0], vast.length[1], vast.length[2]);
    fprintf(stderr, "; rooms of %zu and %zu entries\n", vast.length[3], vast.length[4]);
    exit(1);
}

static void fail_vast_at_fault(int number)
{
    (void)number;
    fail_vast("a submission that is refused is neither read nor written");
}

/* R37: the repair's order, of those lengths. */
static uint32_t vast_refusal(void)
{
    size_t words = vast.length[0];

    if (vast.level > 5)
        return REFUSAL_LEVEL;
    if (vast.sli != 0 && vast.level < 3)
        return REFUSAL_SLI;
    if (words > 8)
        return REFUSAL_SIZE;
    if (vast.length[1] != words / 4 || vast.length[2] != PERMIT_BYTES)
        return REFUSAL_LENGTH;
    return vast.length[3] < words / 4 || vast.length[4] < words / 2 ? REFUSAL_ROOM : REFUSAL_NONE;
}

/* The archive refuses by the table, and so does the model. What isn't refused is not asked. */
static void compare_vast(void)
{
    uint64_t *list = (uint64_t *)(void *)ends.list;
    uint64_t *work = (uint64_t *)(void *)ends.work;
    const size_t *length = vast.length;
    struct repair repair = {vast.level,  vast.sli,  ends.words, length[0], ends.map, length[1],
                            ends.permit, length[2], list,       length[3], work,     length[4]};
    uint32_t refusal = vast_refusal();

    if (refusal == REFUSAL_NONE)
        return;
    if (upborliya_repair(vast.level, vast.sli, ends.words, length[0], ends.map, length[1], ends.permit,
                         length[2], list, length[3], work, length[4]) != (uint64_t)refusal << 8)
        fail_vast("a length that no memory has is refused by the table");
    if (model_repair(&repair).refusal != refusal)
        fail_vast("the model refuses such a length by the table");
    counts.vast++;
}

/* R8, R9, R11: each length alone and with the others, at every level and SLI setting. */
static void test_vast(void)
{
    void (*before)(int) = signal(SIGSEGV, fail_vast_at_fault);

    for (unsigned i = 0; i < 7 * 2; i++) {
        vast.level = i / 2;
        vast.sli = i % 2;
        for (unsigned j = 0; j < 6 * 6 * 6 * 6 * 6; j++) {
            unsigned left = j;

            for (unsigned k = 0; k < 5; k++, left /= 6)
                vast.length[k] = vast_lengths[k][left % 6];
            compare_vast();
        }
    }
    signal(SIGSEGV, before);
}

/* R37, H13, H14: rooms that are said to be vast, and of which only as much is there as is asked for. */
static void test_vast_rooms(struct draw *draw)
{
    static const size_t lengths[] = {WIDE, WIDE + 2, SIZE_MAX / 8 + 1, SIZE_MAX / 8 + 20, SIZE_MAX};

    for (unsigned i = 0; i < 5 * 5 * 8; i++) {
        draw_tangle(draw, &given, 1 + draw_below(draw, 20));
        ask_model(word_count(&given), 2 * word_count(&given));
        ask_archive(lengths[i % 5], lengths[i / 5 % 5]);
        compare_written();
        counts.submissions++;
        counts.vast++;
    }
}

/* ---- Readings ---- */

/* W19, W24: the parts of a number, by the header's functions, in the order that a reading's values have. */
static struct reading unpack(upborliya_reading number)
{
    struct reading reading = {upborliya_form(number), {0, 0, 0}, upborliya_reading_why(number)};

    switch (reading.number) {
    case READING_INCREASING:
    case READING_NON_INCREASING:
        reading.value[0] = upborliya_method_count(number);
        reading.value[1] = upborliya_subchannel(number);
        reading.value[2] = upborliya_method(number);
        break;
    case READING_LONG:
        reading.value[0] = upborliya_subchannel(number);
        reading.value[1] = upborliya_method(number);
        reading.value[2] = upborliya_method_count(number);
        break;
    case READING_SLI:
        reading.value[0] = upborliya_mask(number);
        break;
    case READING_OLD_JUMP:
    case READING_JUMP:
    case READING_CALL:
        reading.value[0] = upborliya_target(number);
        break;
    default:
        reading.value[0] = upborliya_reading_refusal(number);
        break;
    }
    return reading;
}

/* W19: the whole number, and its parts. */
static void compare_reading(uint32_t level, uint32_t mode, uint32_t sli, uint32_t word, uint32_t next)
{
    upborliya_reading number = upborliya_read(level, mode, sli, word, next);
    uint64_t wanted = model_reading_number(level, mode, sli, word, next);
    struct reading reading = model_read((struct setting){level, mode, sli != 0}, word, next);
    struct reading parts = unpack(number);

    if (number == wanted && memcmp(&reading, &parts, sizeof parts) == 0) {
        counts.readings[parts.number]++;
        counts.whys[parts.why]++;
        return;
    }
    fprintf(stderr, "%s: failed: the archive reads as the model\n", comparison);
    fprintf(stderr,
            "level %" PRIu32 ", mode %" PRIu32 ", SLI %" PRIu32 ", words 0x%" PRIx32 ", 0x%" PRIx32 "\n",
            level, mode, sli, word, next);
    fprintf(stderr, "archive: 0x%016" PRIx64 "\nmodel: 0x%016" PRIx64 "\n", number, wanted);
    exit(1);
}

/* W1 to W8, W10 to W14, W19 to W24: words of every form and others, at settings of which some are refused. */
static void test_readings(struct draw *draw)
{
    static const uint32_t levels[] = {0, 1, 2, 3, 4, 5, 6, 256, UINT32_MAX};
    static const uint32_t modes[] = {0, 0, 1, 1, 2, 256, UINT32_MAX};

    for (unsigned i = 0; i < 100000; i++) {
        struct setting setting = draw_setting(draw);
        uint32_t enabled = draw_enabled(draw);
        uint32_t form = draw_form(draw, patterns[draw_below(draw, PATTERNS)]);
        uint32_t word = draw_word(draw);
        uint32_t next = draw_number(draw);

        if (draw_once_in(draw, 4)) {
            setting.level = draw_among(draw, levels, sizeof levels / sizeof levels[0]);
            setting.mode = draw_among(draw, modes, sizeof modes / sizeof modes[0]);
        }
        compare_reading(setting.level, setting.mode, setting.sli ? enabled : 0,
                        draw_once_in(draw, 3) ? word : form, next);
    }
}

/* ---- The program ---- */

static void print_summary(void)
{
    printf(
        "%s: %lu submissions, %lu of them with changes, %lu in all; repaired maps: %lu accepted, %lu not\n",
        comparison, counts.submissions, counts.changed, counts.changes, counts.accepted, counts.bad);
    printf("lengths of more than 32 bits: %lu submissions\n", counts.vast);
    printf("refusals:");
    for (unsigned i = 1; i < REFUSAL_COUNT; i++)
        if (counts.refusals[i] != 0)
            printf(" %u=%lu", i, counts.refusals[i]);
    printf("\nreadings:");
    for (unsigned i = READING_INCREASING; i <= READING_REFUSED; i++)
        printf(" %u=%lu", i, counts.readings[i]);
    printf("\nwhys:");
    for (unsigned i = WHY_FORM; i <= WHY_SLI; i++)
        printf(" %u=%lu", i, counts.whys[i]);
    putchar('\n');
}

/* What was drawn gave each answer often enough for its comparison to mean something. */
static void test_counts(void)
{
    static const uint32_t refusals[] = {REFUSAL_LEVEL, REFUSAL_SLI, REFUSAL_LENGTH, REFUSAL_ROOM};

    for (unsigned i = 0; i < sizeof refusals / sizeof refusals[0]; i++)
        check(counts.refusals[refusals[i]] >= FEWEST, "each refusal is given often enough");
    check(counts.refusals[REFUSAL_SIZE] >= 50, "so is that of the size");
    for (unsigned i = READING_INCREASING; i <= READING_REFUSED; i++)
        check(counts.readings[i] >= FEWEST, "each reading is given often enough");
    for (unsigned i = WHY_FORM; i <= WHY_SLI; i++)
        check(counts.whys[i] >= FEWEST, "each why is given often enough");
    check(counts.accepted >= FEWEST && counts.bad >= FEWEST, "repaired maps are accepted and not");
}

int main(void)
{
    struct draw draw = {0xc0de4e};

    make_rooms();
    signal(SIGSEGV, fail_at_fault);
    test_nulls();
    test_vast();
    test_readings(&draw);
    for (unsigned i = 0; i < 20000; i++)
        test_drawn(&draw, draw_below(&draw, 65));
    for (unsigned i = 0; i < 200; i++)
        test_drawn(&draw, draw_below(&draw, 2000));
    for (unsigned i = 0; i < 40; i++)
        test_drawn(&draw, REPAIR_LIMIT - 1 + i % 3);
    test_uniforms();
    test_sizes();
    test_vast_rooms(&draw);
    print_summary();
    test_counts();
    return 0;
}

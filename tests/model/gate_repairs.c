/* The part of the gatekeeper's vectors that asks about the repair. */
#include <stdlib.h>

#include "gate_vectors.h"

/* The most entries of a REPAIR record's rooms, and of a WIDE record's. */
enum { MOST_LIST = 300, MOST_WORK = 600, WIDE_LIST = 8200, WIDE_WORK = 16400 };

/* What a REPAIR record can hold. */
enum {
    MOST_REPAIR = 9 + 2 * MOST_LISTED + MOST_WORDS + MOST_WORDS / 4 + 2 + MOST_WORDS / 4 + 1 +
                  2 * MOST_LIST + 1 + 2 * MOST_WORK
};

/* The two rooms. */
static uint64_t list[WIDE_LIST];
static uint64_t work[WIDE_WORK];

/* Repairs the submission, in rooms of so many entries. */
static struct outcome repair_given(size_t list_length, size_t work_length)
{
    struct repair repair = {given.level, given.sli,        given.words,  given.words_length,
                            given.map,   given.map_length, given.permit, given.permit_length,
                            list,        list_length,      work,         work_length};

    fill_room(list, list_length);
    fill_room(work, work_length);
    return model_repair(&repair);
}

/* ---- Counts ---- */

/* What a listed change is: of a byte that was no mark 1, of marks that are now more 2, fewer 3, others 4. */
static uint32_t kind_of_change(uint64_t change)
{
    uint32_t before = (uint32_t)(change >> 32 & 0xff);
    uint32_t after = (uint32_t)(change >> 40);

    if (before > STATE_BOTH)
        return 1;
    if ((before & after) == before)
        return 2;
    return (before & after) == after ? 3 : 4;
}

/* H5: whether the map, which is the exact one now, has a pair. */
static bool is_mapped(uint32_t pair)
{
    return (given.map[pair / 2] >> pair % 2 & 1) != 0;
}

/* Of a repaired submission: CHANGED by the number of changes, 3 standing for more; CHANGE by what they are;
 * MARK by the marks that the map has now, each once; BAD by what the gatekeeper's reason is now, 0 where it
 * accepts; and PATH. */
static void count_repaired(struct vectors *vectors, uint32_t changes)
{
    struct submission submission = submission_of(&given);
    bool has[STATE_BOTH + 1] = {false};

    count_one(vectors, CHANGED, changes < 3 ? changes : 3);
    for (uint32_t i = 0; i < changes; i++)
        count_one(vectors, CHANGE, kind_of_change(list[i]));
    for (size_t i = 0; i < given.map_length; i++)
        has[given.map[i]] = true;
    for (uint32_t mark = 0; mark <= STATE_BOTH; mark++)
        if (has[mark])
            count_one(vectors, MARK, mark);
    count_one(vectors, BAD, model_judge(&submission).reason);
    count_path(vectors, PATH_REPAIR, is_mapped);
}

/* R11, R37: where the refusal is ROOM, SHORT by the room: 1 the list's, 2 the work room, 3 both. */
static void count_short(struct vectors *vectors, size_t list_length, size_t work_length)
{
    count_one(vectors, SHORT,
              (list_length < word_count(&given) ? 1 : 0) + (work_length < 2 * word_count(&given) ? 2 : 0));
}

/* ---- REPAIR ---- */

/* R31, R37, H12, H13, H14: the record of the submission, with rooms of so many entries. */
static void put_repair(struct vectors *vectors, uint32_t list_length, uint32_t work_length)
{
    static uint32_t record[MOST_REPAIR];
    struct outcome outcome;
    size_t count;
    bool is_refused;

    fit_permit();
    count = add_head(record);
    record[count++] = listed_count();
    record[count++] = list_length;
    record[count++] = work_length;
    count += add_listed(record + count);
    count += add_bytes(record + count, given.words, given.words_length);
    count += add_bytes(record + count, given.map, given.map_length);
    outcome = repair_given(list_length, work_length);
    is_refused = outcome.refusal != REFUSAL_NONE;
    record[count++] = outcome.refusal;
    record[count++] = outcome.count;
    count += add_bytes(record + count, given.map, given.map_length);
    count += add_entries(record + count, list, outcome.count);
    count += add_entries(record + count, work, is_refused ? 0 : 2 * word_count(&given));
    put_record(vectors, REPAIR, record, count, outcome.refusal);
    if (!is_refused)
        count_repaired(vectors, outcome.count);
    else if (outcome.refusal == REFUSAL_ROOM)
        count_short(vectors, list_length, work_length);
}

/* The same, with the rooms that are asked for. */
static void put_repair_fit(struct vectors *vectors)
{
    put_repair(vectors, word_count(&given), 2 * word_count(&given));
}

/* Half of the time longer ones. */
static void put_repair_roomy(struct vectors *vectors)
{
    struct draw *draw = &vectors->draw;
    uint32_t more = draw_once_in(draw, 2) ? draw_below(draw, 40) : 0;
    uint32_t much = draw_once_in(draw, 2) ? draw_below(draw, 80) : 0;

    put_repair(vectors, word_count(&given) + more, 2 * word_count(&given) + much);
}

/* R11, R37: rooms of which one or both are too short, mostly by one. */
static void put_repair_short(struct vectors *vectors)
{
    struct draw *draw = &vectors->draw;
    uint32_t count = word_count(&given);
    uint32_t which = 1 + draw_below(draw, 3);
    uint32_t fewer = draw_once_in(draw, 3) ? draw_below(draw, count) : count - 1;
    uint32_t less = draw_once_in(draw, 3) ? draw_below(draw, 2 * count) : 2 * count - 1;
    uint32_t more = draw_below(draw, 30);

    put_repair(vectors, which % 2 == 1 ? fewer : count + more, which >= 2 ? less : 2 * count + more);
}

enum { ROW_WORDS = 6 };

/* H3, H4, H5, H12, H17: cases worked out by hand, or that others bring: all methods permitted, rooms as they
 * are asked for. */
static const struct row {
    uint32_t level;
    uint32_t count;
    uint32_t words[ROW_WORDS];
    uint8_t map[ROW_WORDS];
} rows[] = {
    /* The rule book's two, with the map that it gives and with others. */
    {3, 4, {0x00040050, 7, 0xe, 0x00020000}, {1, 1, 1, 255}},
    {3, 4, {0x00040050, 7, 0xe, 0x00020000}, {1, 0, 1, 3}},
    {3, 4, {0x00040050, 7, 0xe, 0x00020000}, {255, 255, 255, 255}},
    {3, 5, {0x400c0050, 1, 0x20000014, 3, 0x20000008}, {1, 0, 0, 0, 1}},
    {3, 5, {0x400c0050, 1, 0x20000014, 3, 0x20000008}, {1, 0, 1, 0, 1}},
    /* A command that isn't reached has a reached place among its parameters; an accepted map changes; one
     * place in two states, and jumps onto each. */
    {3, 3, {0x9, 0x40050, 0}, {1, 0, 1}},
    {3, 3, {0x9, 0x40050, 0}, {1, 1, 1}},
    {3, 2, {0x9, 0}, {1, 1}},
    {3, 3, {0xa, 0x5, 0x20000}, {1, 1, 3}},
    {3, 3, {0, 0, 0x2}, {3, 1, 0}},
    {2, 2, {0x20000004, 0}, {1, 1}},
    {2, 5, {0x12, 0x0a, 0x11, 0x01, 0x20000}, {0, 0, 0, 0, 0}},
    /* The end, past it, and calls of either; a call as the last word. */
    {2, 2, {0x9, 0}, {0, 2}},
    {2, 2, {0xd, 0}, {1, 1}},
    {2, 2, {0xa, 0}, {1, 1}},
    {2, 2, {0xe, 0}, {1, 1}},
    {2, 3, {0x20000008, 0x20000, 0x6}, {1, 2, 1}},
    {2, 2, {0x6, 0}, {1, 2}},
    /* One word, and the one that is reserved; a run that is too long, and one of a method that is lacking.
     */
    {0, 1, {0}, {0}},
    {0, 1, {3}, {2}},
    {0, 2, {0x00080100, 0}, {1, 0}},
    {0, 3, {0x00040050, 0, 0}, {1, 0, 1}},
    /* G13: a run past 0x1ffc, in main, inside and where nothing leads; up to it; a non-increasing one. */
    {0, 4, {0x00081ffc, 0, 0, 0}, {1, 0, 0, 1}},
    {5, 5, {0x000cfff8, 0, 0, 0, 0}, {1, 0, 0, 0, 0}},
    {2, 6, {0xa, 0x19, 0x00081ffc, 0, 0, 0x20000}, {1, 1, 2, 0, 0, 2}},
    {2, 5, {0x6, 0x00081ffc, 0, 0, 0}, {1, 3, 0, 0, 3}},
    {0, 5, {0x20000010, 0x00081ffc, 0, 0, 0}, {1, 1, 0, 0, 0}},
    {0, 4, {0x00081ff8, 0, 0, 0}, {1, 0, 0, 0}},
    {2, 6, {0xa, 0x19, 0x00081ff8, 0, 0, 0x20000}, {1, 1, 0, 0, 0, 0}},
    {1, 4, {0x40081ffc, 0, 0, 0}, {1, 0, 0, 0}},
    /* A call inside, and a jump to itself. */
    {5, 4, {0x0000000a, 0x20000010, 0x0000000e, 0}, {1, 1, 2, 3}},
    {5, 3, {0x20000000, 0x1, 0x2}, {4, 5, 6}},
};

static void put_rows(struct vectors *vectors)
{
    for (size_t i = 0; i < sizeof rows / sizeof rows[0]; i++) {
        set_count(&given, rows[i].count);
        given.level = rows[i].level;
        given.sli = 0;
        fill_permit(&given, 0xff);
        memcpy(given.map, rows[i].map, rows[i].count);
        for (uint32_t place = 0; place < rows[i].count; place++)
            set_word(&given, place, rows[i].words[place]);
        put_repair_fit(vectors);
    }
}

/* R37, H13: without words there is nothing to do, and no room is asked for. */
static void put_empties(struct vectors *vectors)
{
    for (unsigned i = 0; i < SETTINGS; i++) {
        give_setting(i);
        set_count(&given, 0);
        fill_permit(&given, 0x5a);
        put_repair(vectors, i % 3, i % 2);
    }
}

/* Mostly few words. */
static uint32_t draw_size(struct draw *draw)
{
    static const uint32_t limits[] = {4, 8, 12, 16, 16, 20, 20, 20};

    if (draw_once_in(draw, 60))
        return 1 + draw_below(draw, 250);
    return 1 + draw_below(draw, draw_among(draw, limits, sizeof limits / sizeof limits[0]));
}

/* H12, H13, H15, H16, H17: sound words with every mark, with the exact map, and with any bytes for a map;
 * the same damaged, in words or map; wild and tangled ones. */
static void put_drawn_repairs(struct vectors *vectors)
{
    struct draw *draw = &vectors->draw;

    for (unsigned i = 0; i < 120; i++) {
        draw_sound(draw, &given, draw_size(draw));
        if (i % 4 == 0)
            give_exact_map(&given);
        else if (i % 4 == 1)
            draw_map(draw, &given);
        put_repair_roomy(vectors);
    }
    for (unsigned i = 0; i < 10 * damage_count(); i++) {
        draw_sound(draw, &given, draw_size(draw));
        if (i % 2 == 0)
            give_exact_map(&given);
        damage(draw, &given, i % damage_count());
        put_repair_roomy(vectors);
    }
    for (unsigned i = 0; i < 100; i++) {
        draw_wild(draw, &given, draw_size(draw));
        if (i % 2 == 0)
            draw_map(draw, &given);
        put_repair_roomy(vectors);
    }
    for (unsigned i = 0; i < 230; i++) {
        draw_tangle(draw, &given, draw_size(draw));
        put_repair_roomy(vectors);
    }
}

/* R21, R31, R37: what is refused, by one refusal alone, by several, or by the rooms as well. */
static void put_refused_repairs(struct vectors *vectors)
{
    struct draw *draw = &vectors->draw;

    for (unsigned i = 0; i < 60; i++) {
        draw_tangle(draw, &given, draw_size(draw));
        if (i % 4 == 0)
            give_exact_map(&given);
        put_repair_short(vectors);
    }
    for (unsigned i = 0; i < 80; i++) {
        draw_sound(draw, &given, 2 + draw_size(draw));
        if (i % 3 == 0)
            draw_map(draw, &given);
        refuse(draw, &given);
        if (i % 4 == 0)
            put_repair_short(vectors);
        else
            put_repair_roomy(vectors);
    }
}

void put_repairs(struct vectors *vectors)
{
    vectors->draw = (struct draw){0x4e9a14};
    put_rows(vectors);
    put_empties(vectors);
    put_drawn_repairs(vectors);
    put_refused_repairs(vectors);
}

/* ---- WIDE ---- */

/* A question in which all bytes of the words are the same, and all of the map. */
struct wide {
    uint32_t level;
    uint32_t sli;
    uint32_t words_length;
    uint32_t map_length;
    uint32_t permit_length;
    uint8_t permit_fill;
    uint32_t list_length;
    uint32_t work_length;
    uint8_t words_fill;
    uint8_t map_fill;
};

/* Every place but the first has the same byte afterwards, or there is none. */
static uint8_t byte_behind_first(void)
{
    for (size_t i = 2; i < given.map_length; i++)
        if (given.map[i] != given.map[1])
            abort();
    return given.map_length < 2 ? 0 : given.map[1];
}

static void put_wide(struct vectors *vectors, const struct wide *wide)
{
    uint32_t record[10 + 4];
    struct outcome outcome;
    size_t count;

    given.level = wide->level;
    given.sli = wide->sli;
    fill_permit(&given, wide->permit_fill);
    given.words_length = wide->words_length;
    given.map_length = wide->map_length;
    given.permit_length = wide->permit_length;
    memset(given.words, wide->words_fill, given.words_length);
    memset(given.map, wide->map_fill, given.map_length);
    count = add_head(record);
    record[count++] = wide->list_length;
    record[count++] = wide->work_length;
    record[count++] = wide->words_fill;
    record[count++] = wide->map_fill;
    outcome = repair_given(wide->list_length, wide->work_length);
    record[count++] = outcome.refusal;
    record[count++] = outcome.count;
    record[count++] = given.map_length == 0 ? 0 : given.map[0];
    record[count++] = byte_behind_first();
    put_record(vectors, WIDE, record, count, outcome.refusal);
}

/* R8, R9, R11, R37, H12, H13: sizes around the largest, rooms one short at it, and what many words come to:
 * count 0 throughout, jumps past the end, 257 parameters. */
void put_wides(struct vectors *vectors)
{
    enum { ALL = REPAIR_LIMIT, ONE = 4 * ALL + 4 };
    static const struct wide wides[] = {
        /* As many words as there can be: every byte changes, none, all but the first, the first alone. */
        {0, 0, 4 * ALL, ALL, 2048, 0x00, ALL, 2 * ALL, 0x00, 0},
        {5, 2, 4 * ALL, ALL, 2048, 0xff, ALL, 2 * ALL, 0x00, 255},
        {3, 1, 4 * ALL, ALL, 2048, 0x55, ALL, 2 * ALL, 0x00, 1},
        {0, 0, 4 * ALL, ALL, 2048, 0xff, ALL, 2 * ALL, 0x20, 1},
        {4, 0, 4 * ALL, ALL, 2048, 0xff, 8200, 16400, 0x20, 0},
        {2, 0, 4 * ALL, ALL, 2048, 0xff, ALL, 2 * ALL, 0x01, 255},
        {5, 1, 4 * ALL, ALL, 2048, 0xff, 8200, 2 * ALL, 0x02, 3},
        /* 257 parameters up to the end, and 1,799, of which the last is missing, or that go past 0x1ffc. */
        {1, 0, 4 * 258, 258, 2048, 0xff, 258, 516, 0x04, 3},
        {1, 0, 4 * 1799, 1799, 2048, 0xff, 1799, 3598, 0x1c, 2},
        {1, 0, 4 * 1800, 1800, 2048, 0xff, 1800, 3600, 0x1c, 0},
        /* One byte too many, one word, and more, whatever else is wrong. */
        {5, 0, 4 * ALL + 1, ALL, 2048, 0xff, ALL, 2 * ALL, 0x00, 0},
        {5, 0, ONE, ALL + 1, 2048, 0xff, ALL + 1, 2 * ALL + 2, 0x00, 0},
        {3, 1, ONE + 3, ALL, 2047, 0xff, 0, 0, 0x00, 255},
        {0, 0, 4 * ALL + 16, ALL + 4, 2048, 0xff, 8200, 16400, 0x00, 1},
        {6, 1, ONE, ALL + 1, 2048, 0xff, ALL, 2 * ALL, 0x00, 4},
        {2, 256, ONE, ALL + 1, 2049, 0xff, ALL, 2 * ALL, 0x00, 0},
        /* LENGTH at that size. */
        {5, 0, 4 * ALL - 1, ALL - 1, 2048, 0xff, ALL, 2 * ALL, 0x00, 0},
        {5, 0, 4 * ALL, ALL + 1, 2048, 0xff, ALL - 1, 2 * ALL, 0x00, 0},
        {5, 0, 4 * ALL, ALL - 1, 2048, 0xff, ALL, 2 * ALL, 0x00, 255},
        {5, 0, 4 * ALL, ALL, 2047, 0xff, ALL, 2 * ALL, 0x00, 255},
        /* Rooms one short, one half as long, none; also where nothing would change. */
        {5, 1, 4 * ALL, ALL, 2048, 0xff, ALL - 1, 2 * ALL, 0x00, 255},
        {5, 1, 4 * ALL, ALL, 2048, 0xff, ALL, 2 * ALL - 1, 0x00, 255},
        {5, 1, 4 * ALL, ALL, 2048, 0xff, ALL - 1, 2 * ALL, 0x00, 1},
        {5, 1, 4 * ALL, ALL, 2048, 0xff, ALL, 2 * ALL - 1, 0x00, 1},
        {5, 1, 4 * ALL, ALL, 2048, 0xff, 8200, ALL, 0x00, 0},
        {5, 1, 4 * ALL, ALL, 2048, 0xff, 0, 16400, 0x20, 0},
    };

    for (size_t i = 0; i < sizeof wides / sizeof wides[0]; i++)
        put_wide(vectors, &wides[i]);
}

/* The part of the gatekeeper's vectors that asks about the search, and about readings for C. */
#include "gate_vectors.h"
#include "pattern.h"

/* ---- SEARCH ---- */

/* The most entries of its room, and what its record can hold. */
enum { MOST_ROOM = 600, MOST_SEARCH = 8 + 2 * MOST_LISTED + MOST_WORDS + 1 + 3 + 2 * MOST_ROOM };

/* The search that is asked about: the submission's words and permit list, at a setting that may have another
 * mode. */
static uint32_t mode;
static uint64_t room[MOST_ROOM];

static struct outcome search_given(size_t room_length)
{
    struct setting setting = {given.level, mode, given.sli != 0};
    struct search search = {setting, given.words, given.words_length, given.permit, given.permit_length,
                            room,    room_length};

    fill_room(room, room_length);
    return model_search(&search);
}

/* Whether the pairs were not found in the order of their numbers. */
static bool is_out_of_order(uint32_t found)
{
    for (uint32_t i = 1; i < found; i++)
        if (room[i] >> 32 < room[i - 1] >> 32)
            return true;
    return false;
}

/* H11: whether a pair was found. */
static bool is_found(uint32_t pair)
{
    return (uint32_t)room[pair] != 0;
}

/* G23: whether more would be found if the list went on, and permitted all that comes then. It is left so. */
static bool is_decided_by_cut(uint32_t found)
{
    size_t length = given.permit_length;

    if (length >= PERMIT_BYTES)
        return false;
    memset(given.permit + length, 0xff, PERMIT_BYTES - length);
    given.permit_length = PERMIT_BYTES;
    return search_given(MOST_ROOM).count != found;
}

/* FOUND by how many pairs, 3 standing for more; ORDER by 1 where they aren't in the order of their numbers;
 * SETTING by the mode, 2 where the setting is refused, else PATH too; LIST by 0 where the permit list is
 * shorter than the gatekeeper's, 1 where it has that length, 2 where it is longer; CUT by 1 where its end
 * decides. */
static void count_searched(struct vectors *vectors, uint32_t found)
{
    struct setting setting = {given.level, mode, given.sli != 0};
    bool is_refused = model_setting_refusal(setting) != REFUSAL_NONE;

    count_one(vectors, FOUND, found < 3 ? found : 3);
    count_one(vectors, ORDER, is_out_of_order(found));
    count_one(vectors, SETTING, is_refused ? 2 : mode);
    if (!is_refused)
        count_path(vectors, PATH_SEARCH, is_found);
    count_one(vectors, LIST, (given.permit_length >= PERMIT_BYTES) + (given.permit_length > PERMIT_BYTES));
    count_one(vectors, CUT, is_decided_by_cut(found));
}

/* What is asked, but for the words. */
static size_t add_search(uint32_t *record, uint32_t room_length)
{
    size_t count = 0;

    record[count++] = given.level;
    record[count++] = mode;
    record[count++] = given.sli != 0;
    record[count++] = (uint32_t)given.words_length;
    record[count++] = (uint32_t)given.permit_length;
    record[count++] = given.permit_fill;
    record[count++] = listed_count();
    record[count++] = room_length;
    return count + add_listed(record + count);
}

/* R31, R36, H9, H10, H11: the record of the search, in a room of so many entries. */
static void put_search(struct vectors *vectors, uint32_t room_length)
{
    static uint32_t record[MOST_SEARCH];
    struct outcome outcome;
    bool is_refused;
    size_t count;

    fit_permit();
    outcome = search_given(room_length);
    is_refused = outcome.refusal != REFUSAL_NONE;
    count = add_search(record, room_length);
    count += add_bytes(record + count, given.words, given.words_length);
    record[count++] = outcome.refusal;
    record[count++] = outcome.count;
    count += add_entries(record + count, room, is_refused ? 0 : 2 * word_count(&given));
    put_record(vectors, SEARCH, record, count, outcome.refusal);
    if (!is_refused)
        count_searched(vectors, outcome.count);
}

/* W17, R11, R36: a part word at the end now and then, which needs no room; the room that is asked for,
 * longer, or too short. */
static void put_search_somehow(struct vectors *vectors)
{
    struct draw *draw = &vectors->draw;
    uint32_t entries = 2 * word_count(&given);
    uint32_t more = entries + draw_below(draw, 30);
    uint32_t fewer =
        entries == 0 ? 0 : entries - 1 - (draw_once_in(draw, 3) ? draw_below(draw, entries) : 0);
    uint32_t rooms[] = {entries, entries, entries, entries, more, more, more, fewer};

    if (draw_once_in(draw, 4)) {
        set_word(&given, word_count(&given), draw_word(draw));
        given.words_length += 1 + draw_below(draw, 3);
    }
    put_search(vectors, draw_among(draw, rooms, sizeof rooms / sizeof rooms[0]));
}

enum { ROW_WORDS = 6 };

/* G13, H2, H9: a run past 0x1ffc, in main, inside, in both and where nothing leads; one up to 0x1ffc, of one
 * parameter, of none, or non-increasing. All methods are permitted, and the room is as it is asked for. */
static const struct row {
    uint32_t level;
    uint32_t mode;
    uint32_t count;
    uint32_t words[ROW_WORDS];
} rows[] = {
    {0, MODE_NV04, 4, {0x81ffc, 0, 0, 0}},
    {3, MODE_NV04, 5, {0xcfff8, 0, 0, 0, 0}},
    {2, MODE_NV04, 6, {0x12, 0x81ffc, 0, 0, 0, 0x20000}},
    {2, MODE_NV04, 6, {0xa, 0x19, 0x81ffc, 0, 0, 0x20000}},
    {2, MODE_NV04, 5, {0x6, 0x81ffc, 0, 0, 0}},
    {1, MODE_NV04, 6, {0x20000010, 0x81ffc, 0, 0, 0, 0}},
    {4, MODE_IB, 4, {0x81ffc, 0, 0, 0}},
    {5, MODE_IB, 6, {0x41ffc, 0, 0xc3ff8, 0, 0, 0}},
    {0, MODE_NV04, 4, {0x81ff8, 0, 0, 0}},
    {0, MODE_NV04, 3, {0x41ffc, 0, 0}},
    {0, MODE_NV04, 2, {0x1ffc, 0}},
    {1, MODE_NV04, 4, {0x40081ffc, 0, 0, 0}},
    {2, MODE_NV04, 6, {0xa, 0x19, 0x81ff8, 0, 0, 0x20000}},
    {5, MODE_IB, 4, {0x8fff8, 0, 0, 0}},
    {4, MODE_IB, 4, {0x40081ffc, 0, 0, 0}},
};

static void put_rows(struct vectors *vectors)
{
    for (size_t i = 0; i < sizeof rows / sizeof rows[0]; i++) {
        given.level = rows[i].level;
        given.sli = 0;
        mode = rows[i].mode;
        set_count(&given, rows[i].count);
        fill_permit(&given, 0xff);
        for (uint32_t place = 0; place < rows[i].count; place++)
            set_word(&given, place, rows[i].words[place]);
        put_search(vectors, 2 * rows[i].count);
    }
}

/* Mostly few words. */
static uint32_t draw_size(struct draw *draw)
{
    static const uint32_t limits[] = {6, 12, 12, 20, 20, 24};

    if (draw_once_in(draw, 80))
        return 1 + draw_below(draw, 250);
    return draw_below(draw, draw_among(draw, limits, sizeof limits / sizeof limits[0]));
}

/* A permit list of another length, mostly shorter than the gatekeeper asks for. */
static void cut_permit(struct draw *draw)
{
    uint32_t any = draw_below(draw, PERMIT_BYTES);
    uint32_t lengths[] = {0, 1, 8, 9, 256, 0x108, 2047, 2049, 4096, any, any, any};

    given.permit_length = draw_among(draw, lengths, sizeof lengths / sizeof lengths[0]);
}

/* W5, G3: a word for IB mode: runs, conditionals, seldom a long form, or what only NV04-style has. */
static uint32_t draw_ib_word(struct draw *draw, uint32_t count)
{
    uint32_t run = draw_tangle_run(draw);

    switch (draw_below(draw, 16)) {
    case 0:
        return 0x00030000 | (run & 0xffff);
    case 1:
        return draw_wild_word(draw, count);
    case 2:
    case 3:
    case 4:
        return given.sli == 0 ? run : 0x00010000 | (draw_number(draw) & 0xfff0);
    case 5:
    case 6:
    case 7:
        return 0x40000000 | run;
    default:
        return run;
    }
}

static void draw_ib(struct draw *draw, uint32_t count)
{
    draw_tangle(draw, &given, count);
    given.level = 4 + draw_below(draw, 2);
    given.sli = draw_below(draw, 2);
    for (uint32_t place = 0; place < count; place++)
        set_word(&given, place, draw_ib_word(draw, count));
}

/* R1, R2, R4, W13: a setting that is refused, by numbers that a narrower type would cut to good ones too. */
static void refuse_setting(struct draw *draw)
{
    static const uint32_t settings[][3] = {
        {6, 0, 0},   {256, 0, 0}, {UINT32_MAX, 1, 1}, {2, 1, 0}, {3, 1, 1}, {5, 2, 0},
        {4, 257, 1}, {5, 256, 0}, {0, 0, 1},          {2, 0, 1}, {1, 1, 1}, {4, UINT32_MAX, 0},
    };
    uint32_t i = draw_below(draw, sizeof settings / sizeof settings[0]);

    given.level = settings[i][0];
    mode = settings[i][1];
    given.sli = settings[i][2];
}

/* H9, H10, H11: tangled words above all, sound, damaged and wild ones; then IB mode and refused settings. */
void put_searches(struct vectors *vectors)
{
    struct draw *draw = &vectors->draw;

    *draw = (struct draw){0x5ea4c4};
    put_rows(vectors);
    for (unsigned i = 0; i < 450; i++) {
        uint32_t kind = i % 10;

        mode = MODE_NV04;
        if (kind < 5)
            draw_tangle(draw, &given, 4 + draw_size(draw));
        else if (kind < 7)
            draw_sound(draw, &given, draw_size(draw));
        else if (kind < 8)
            draw_wild(draw, &given, draw_size(draw));
        else
            draw_ib(draw, draw_size(draw));
        if (kind == 6)
            damage(draw, &given, draw_below(draw, damage_count()));
        if (kind >= 8)
            mode = draw_once_in(draw, 6) ? MODE_NV04 : MODE_IB;
        if (draw_once_in(draw, 3))
            cut_permit(draw);
        if (draw_once_in(draw, 10))
            refuse_setting(draw);
        put_search_somehow(vectors);
    }
}

/* ---- READ ---- */

/* A setting for C, where SLI is a number. */
struct c_setting {
    uint32_t level;
    uint32_t mode;
    uint32_t sli;
};

/* W19: a question, and the number that is answered. */
static void put_reading(struct vectors *vectors, struct c_setting setting, uint32_t word, uint32_t next)
{
    uint64_t number = model_reading_number(setting.level, setting.mode, setting.sli, word, next);
    uint32_t low = (uint32_t)number;
    uint32_t high = (uint32_t)(number >> 32);
    uint32_t words[] = {setting.level, setting.mode, setting.sli, word, next, low, high};

    put_record(vectors, READ, words, sizeof words / sizeof words[0], low & 0xff);
    if ((low & 0xff) == READING_RESERVED)
        count_one(vectors, READ_WHY, low >> 16 & 0xff);
}

enum { GRID = 42, OTHERS = 12 };

/* R1, R2, R4, W19: setting i of a grid: levels 0 to 6, modes 0 to 2, SLI off and on, by any number. */
static struct c_setting grid_at(struct draw *draw, unsigned i)
{
    uint32_t enabled = draw_enabled(draw);

    return (struct c_setting){i / 6, i / 2 % 3, i % 2 == 0 ? 0 : enabled};
}

/* R1, R2, R4: numbers that a narrower type would cut to good ones. */
static const struct c_setting others[OTHERS] = {
    {255, 0, 0},        {256, 0, 1},   {UINT32_MAX, 0, 0},  {259, 0, 256},
    {0, 256, 0},        {5, 256, 1},   {4, 257, 0x10000},   {5, 255, 0},
    {0, UINT32_MAX, 0}, {256, 256, 0}, {2, 0, 0x80000000U}, {UINT32_MAX, UINT32_MAX, 2},
};

/* W19: every form with its fields least, largest and drawn. */
static void put_reading_forms(struct vectors *vectors, struct c_setting setting)
{
    for (unsigned i = 0; i < PATTERNS; i++) {
        uint32_t word = draw_form(&vectors->draw, patterns[i]);
        uint32_t next = draw_number(&vectors->draw);

        put_reading(vectors, setting, pattern_bits(patterns[i], '1'), 0);
        put_reading(vectors, setting, ~pattern_bits(patterns[i], '0'), UINT32_MAX);
        put_reading(vectors, setting, word, next);
    }
}

/* W10, W12, W19: the rule book's words to try, and neighbours of forms that are none. */
static void put_reading_words(struct vectors *vectors, struct c_setting setting)
{
    static const uint32_t words[] = {0x00000000, 0x00082180, 0x400cfffc, 0x00010050, 0x00020000,
                                     0x00034100, 0x3ffffffc, 0x00002002, 0x00020004, 0x00000003,
                                     0x00010001, 0x00010008, 0x60000000, 0x80000000};

    for (unsigned i = 0; i < sizeof words / sizeof words[0]; i++)
        put_reading(vectors, setting, words[i], 3);
}

/* W5, W14, W19: counts at their limits, with bits above them. */
static void put_reading_counts(struct vectors *vectors, uint32_t level, uint32_t sli)
{
    static const uint32_t nexts[] = {0,          1,          0x00800000, 0x00fffffe, 0x00ffffff,
                                     0x01000000, 0x80000001, 0xff000000, 0xff00abcd, UINT32_MAX};

    for (unsigned i = 0; i < sizeof nexts / sizeof nexts[0]; i++) {
        uint32_t word = draw_form(&vectors->draw, patterns[READING_LONG - 1]);

        put_reading(vectors, (struct c_setting){level, MODE_IB, sli}, word, nexts[i]);
    }
}

/* W19: a word of a drawn form, or any, at a setting that is not refused, or seldom at any of the grid. */
static void put_reading_drawn(struct vectors *vectors)
{
    struct draw *draw = &vectors->draw;
    struct setting good = draw_setting(draw);
    struct c_setting any = grid_at(draw, draw_below(draw, GRID));
    uint32_t enabled = draw_enabled(draw);
    uint32_t form = draw_form(draw, patterns[draw_below(draw, PATTERNS)]);
    uint32_t word = draw_word(draw);
    uint32_t next = draw_number(draw);

    if (!draw_once_in(draw, 8))
        any = (struct c_setting){good.level, good.mode, good.sli ? enabled : 0};
    put_reading(vectors, any, draw_once_in(draw, 3) ? word : form, next);
}

/* W19, W20, W21, W22, W23, W24: for each why that a setting has, words that are reserved for it. */
static void put_reading_whys(struct vectors *vectors, struct c_setting setting)
{
    struct setting good = {setting.level, setting.mode, setting.sli != 0};

    for (uint32_t i = 0; i < 4 * WHY_SLI; i++) {
        uint32_t why = WHY_FORM + i / 4;
        uint32_t next = draw_number(&vectors->draw);

        if (why_fits(good, why))
            put_reading(vectors, setting, draw_reserved(&vectors->draw, good, why), next);
    }
}

/* W1, W2, W3, W4, W5, W6, W7, W8, W13, W19, R22: readings for C. */
void put_readings(struct vectors *vectors)
{
    vectors->draw = (struct draw){0x4ead19};
    for (unsigned i = 0; i < GRID; i++) {
        struct c_setting setting = grid_at(&vectors->draw, i);

        put_reading_words(vectors, setting);
        if (model_setting_refusal((struct setting){setting.level, setting.mode, setting.sli != 0}) !=
            REFUSAL_NONE)
            continue;
        put_reading_forms(vectors, setting);
        put_reading_whys(vectors, setting);
    }
    for (unsigned i = 0; i < OTHERS; i++)
        put_reading_words(vectors, others[i]);
    for (uint32_t level = 3; level <= 5; level++)
        for (uint32_t sli = 0; sli <= 2; sli++)
            put_reading_counts(vectors, level, sli);
    for (unsigned i = 0; i < 1900; i++)
        put_reading_drawn(vectors);
}

/* The OPEN records: every refusal by itself and with others, and tables of every length. */
#include "channel_vectors.h"

/* A question: the set-up, how much of the table pool is lent, and the words that the record gives of it. */
struct opening {
    struct setup setup;
    uint32_t lent;
    uint32_t table[GIVEN];
    uint32_t table_count;
};

/* R30, S1: one question, with the channel that opening leaves. */
static void put_open(struct vectors *vectors, const struct opening *opening)
{
    static uint32_t pool[TABLE_POOL];
    const struct setup *setup = &opening->setup;
    uint32_t head[] = {setup->setting.level, setup->setting.mode, setup->ib_order, setup->setting.sli,
                       setup->sli_mask,      setup->dma_limit,    opening->lent};
    static struct buffer buffer;
    struct channel channel;
    struct opened opened;

    for (uint32_t i = 0; i < TABLE_POOL; i++)
        pool[i] = i < opening->table_count ? opening->table[i] : 0x80000000 + i;
    opened = model_open(&channel, *setup, pool, opening->lent);
    buffer.count = 0;
    add_words(&buffer, head, sizeof head / sizeof head[0]);
    add_counted(&buffer, opening->table, opening->table_count);
    add(&buffer, opened.refusal);
    add(&buffer, opened.entry);
    add_channel(vectors, &buffer, &channel);
    put_record(vectors, OPEN, buffer.words, buffer.count, opened.refusal);
}

/* ---- What is refused ---- */

/* What can be wrong with an opening, as bits of a set. */
enum {
    BAD_LEVEL = 1,
    BAD_MODE = 2,
    BAD_ORDER = 4,
    BAD_SLI = 8,
    BAD_MASK = 16,
    BAD_TABLE = 32,
    BAD_REPEAT = 64
};
enum { SETS = 128 };

/* R1, R2, R4: level, mode and SLI setting. A level that is too high can't be below 3 as well; then SLI is no
 * fault. */
static struct setting draw_bad_setting(struct draw *draw, unsigned set)
{
    static const uint32_t levels[] = {6, 7, 255, 256, 257, 260, 261, 65536 + 4, UINT32_MAX};
    static const uint32_t modes[] = {2, 3, 255, 256, 257, 65536, 65537, UINT32_MAX};
    struct setting setting = draw_setting(draw);
    bool is_low = (set & BAD_ORDER) != 0 || draw_once_in(draw, 2);

    if (set & BAD_ORDER)
        setting = (struct setting){4 + draw_below(draw, 2), MODE_IB, setting.sli};
    if (set & BAD_SLI)
        setting = (struct setting){draw_below(draw, 3), set & BAD_ORDER ? MODE_IB : MODE_NV04, true};
    /* R2: one of its two ways. */
    if ((set & BAD_MODE) != 0 && is_low)
        setting = (struct setting){draw_below(draw, 4), MODE_IB, (set & BAD_SLI) != 0};
    else if (set & BAD_MODE)
        setting.mode = draw_among(draw, modes, sizeof modes / sizeof modes[0]);
    if (set & BAD_LEVEL)
        setting.level = draw_among(draw, levels, sizeof levels / sizeof levels[0]);
    return setting;
}

/* R3, R10, S1: the numbers of a set-up besides. */
static struct setup draw_setup(struct draw *draw, unsigned set)
{
    static const uint32_t orders[] = {13, 14, 32, 255, 256, 268, 65536, UINT32_MAX};
    static const uint32_t masks[] = {4096, 4097, 8191, 65535, 65536, 0x80000000, UINT32_MAX};
    struct setup setup = {.setting = draw_bad_setting(draw, set)};

    /* S1: NV04-style takes any. */
    setup.ib_order = draw_any_number(draw);
    if (setup.setting.mode == MODE_IB)
        setup.ib_order %= ORDER_LIMIT + 1;
    if (set & BAD_ORDER)
        setup.ib_order = draw_among(draw, orders, sizeof orders / sizeof orders[0]);
    setup.sli_mask = draw_any_number(draw) >> 20;
    if (set & BAD_MASK)
        setup.sli_mask = draw_among(draw, masks, sizeof masks / sizeof masks[0]);
    setup.dma_limit = draw_any_number(draw);
    return setup;
}

/* ---- Tables ---- */

/* Entries with handles that differ, 0 among them at times; their other words are drawn, or handles too. */
static void draw_entries(struct draw *draw, struct opening *opening, uint32_t entries)
{
    uint32_t step = draw_number(draw) | 1;
    uint32_t first = draw_once_in(draw, 2) ? 0 - step * draw_below(draw, 16) : draw_number(draw);

    opening->table_count = ENTRY_WORDS * entries;
    for (uint32_t i = 0; i < entries; i++) {
        uint32_t *entry = opening->table + ENTRY_WORDS * i;

        entry[0] = first + step * i;
        for (unsigned j = 1; j < ENTRY_WORDS; j++)
            entry[j] = draw_once_in(draw, 3) ? first + step * draw_below(draw, 16) : draw_number(draw);
    }
}

/* R6: makes an entry repeat an earlier one that the record gives. Behind the words given, an entry has the
 * handle 0x80000000 plus its place, so that the earlier one takes it. */
static void repeat(struct opening *opening, uint32_t earlier, uint32_t later)
{
    if (ENTRY_WORDS * later < opening->table_count)
        opening->table[ENTRY_WORDS * later] = opening->table[ENTRY_WORDS * earlier];
    else
        opening->table[ENTRY_WORDS * earlier] = 0x80000000 + ENTRY_WORDS * later;
}

/* R5: lengths that are refused, part entries and more than 4,096 words. */
static uint32_t draw_bad_lent(struct draw *draw)
{
    static const uint32_t lents[] = {1, 2, 3, 5, 6, 7, 9, 4093, 4095, 4097, 4098, 4099, 4100, 4101, 4104};

    return draw_among(draw, lents, sizeof lents / sizeof lents[0]);
}

static struct opening draw_opening(struct draw *draw, unsigned set)
{
    struct opening opening = {.setup = draw_setup(draw, set)};

    draw_entries(draw, &opening, 2 + draw_below(draw, 2));
    opening.lent = ENTRY_WORDS * draw_below(draw, 4);
    if (set & BAD_REPEAT) {
        opening.lent = 8 + ENTRY_WORDS * draw_below(draw, 3);
        repeat(&opening, 0, 1 + draw_below(draw, opening.lent / ENTRY_WORDS - 1));
    }
    if (set & BAD_TABLE)
        opening.lent = draw_bad_lent(draw);
    return opening;
}

/* R6: one entry repeats an earlier one, near or far. The lent table ends behind it, with it or before it. */
static void put_open_repeat(struct vectors *vectors, uint32_t later)
{
    struct draw *draw = &vectors->draw;

    for (unsigned i = 0; i < 3; i++) {
        struct opening opening = {.setup = draw_setup(draw, 0)};
        uint32_t ends[] = {later + 2, later + 1, later};
        uint32_t given = 1 + draw_below(draw, 5);

        draw_entries(draw, &opening, given);
        repeat(&opening, draw_below(draw, given < later ? given : later), later);
        opening.lent = ENTRY_WORDS * (ends[i] < 1024 ? ends[i] : 1024);
        put_open(vectors, &opening);
    }
}

/* R6: several repeats, pairs that lie within each other, cross or share an entry. The one to be told is not
 * always the one that repeats the lowest. */
static void put_open_repeats(struct vectors *vectors)
{
    struct draw *draw = &vectors->draw;
    struct opening opening = {.setup = draw_setup(draw, 0)};
    uint32_t entries = 4 + draw_below(draw, 6);
    uint32_t pairs = 2 + draw_below(draw, 2);

    draw_entries(draw, &opening, entries);
    opening.lent = ENTRY_WORDS * (entries + draw_below(draw, 3));
    for (uint32_t i = 0; i < pairs; i++) {
        uint32_t later = 1 + draw_below(draw, entries + 3);

        repeat(&opening, draw_below(draw, later < entries ? later : entries), later);
    }
    put_open(vectors, &opening);
}

/* R5: every length at issue, the table given only in part. */
static void put_open_lents(struct vectors *vectors)
{
    static const uint32_t lents[] = {0,  1,    2,    3,    4,    5,    8,    60,   62,   63,   64,   65,
                                     68, 4088, 4092, 4093, 4094, 4095, 4096, 4097, 4098, 4100, 4103, 4104};

    for (unsigned i = 0; i < sizeof lents / sizeof lents[0]; i++)
        for (unsigned j = 0; j < 3; j++) {
            struct opening opening = {.setup = draw_setup(&vectors->draw, 0)};

            draw_entries(&vectors->draw, &opening, j);
            opening.lent = lents[i];
            put_open(vectors, &opening);
        }
}

/* R1, R2, R3, R4, R10, R25: every level, mode and SLI setting around the limits, with orders and masks at
 * theirs. */
static void put_open_grid(struct vectors *vectors)
{
    static const uint32_t orders[] = {0, 12, 13};
    static const uint32_t masks[] = {0, 4095, 4096};

    for (uint32_t i = 0; i < 7 * 3 * 2 * 3; i++) {
        struct setting setting = {i / 18, i / 6 % 3, i / 3 % 2 == 1};
        uint32_t mask = draw_among(&vectors->draw, masks, 3);
        struct opening opening = {.setup = {setting, orders[i % 3], 0, mask}};

        opening.setup.dma_limit = draw_any_number(&vectors->draw);
        put_open(vectors, &opening);
    }
}

/* S1: what isn't refused, every order in IB mode, any in NV04-style; tables that end within the words
 * given. */
static void put_open_good(struct vectors *vectors)
{
    for (uint32_t i = 0; i < 270; i++) {
        struct opening opening = draw_opening(&vectors->draw, 0);

        if (opening.setup.setting.mode == MODE_IB)
            opening.setup.ib_order = i % (ORDER_LIMIT + 1);
        put_open(vectors, &opening);
    }
}

/* R21, R25: openings with every set of faults, and each fault by itself. */
void put_opens(struct vectors *vectors)
{
    static const uint32_t laters[] = {1, 2, 3, 4, 5, 14, 15, 16, 17, 31, 255, 256, 511, 1000, 1022, 1023};

    put_open_grid(vectors);
    put_open_good(vectors);
    put_open_lents(vectors);
    for (unsigned i = 0; i < SETS * 5; i++) {
        struct opening opening = draw_opening(&vectors->draw, i % SETS);

        put_open(vectors, &opening);
    }
    /* Each fault by itself. */
    for (unsigned i = 0; i < 7 * 25; i++) {
        struct opening opening = draw_opening(&vectors->draw, 1U << i % 7);

        put_open(vectors, &opening);
    }
    for (unsigned i = 0; i < sizeof laters / sizeof laters[0]; i++)
        put_open_repeat(vectors, laters[i]);
    for (unsigned i = 0; i < 180; i++)
        put_open_repeats(vectors);
}

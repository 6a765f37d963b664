/* Channels to ask about, well-formed or not, and the PUT records, which need nothing else. */
#include "channel_vectors.h"

uint32_t draw_any_number(struct draw *draw)
{
    static const uint32_t ends[] = {0, 1, 0x7fffffff, 0x80000000, 0xfffffffe, UINT32_MAX};
    uint32_t number = draw_number(draw);

    return draw_once_in(draw, 3) ? draw_among(draw, ends, sizeof ends / sizeof ends[0]) : number;
}

uint64_t draw_clock(struct draw *draw)
{
    uint64_t low = draw_any_number(draw);
    uint64_t high = draw_any_number(draw);

    while (low == 0 || high == 0 || low == high) {
        low = draw_number(draw);
        high = draw_number(draw);
    }
    return high << 32 | low;
}

/* ---- Well-formed channels ---- */

/* R32: the widths of the words of a row, but for those that depend on the set-up: they stay 0 here, as do the
 * errors with their why, the active acquire and its mode. */
static const unsigned char widths[CHANNEL_WORDS] = {
    [AT_DMA_LIMIT] = 32,     [AT_GET] = 32,         [AT_PUT] = 32,           [AT_COUNT] = 24,
    [AT_METHOD] = 11,        [AT_SUBCHANNEL] = 3,   [AT_INCREASING] = 1,     [AT_COUNT_AWAITED] = 1,
    [AT_SUBROUTINE] = 1,     [AT_NOT_MAIN] = 1,     [AT_DMA_MGET] = 32,      [AT_RETURN_ADDRESS] = 32,
    [AT_SLI_MASK] = 12,      [AT_SLI_ACTIVE] = 1,   [AT_ENGINE_0] = 5,       [AT_ENGINE_1] = 5,
    [AT_ENGINE_2] = 5,       [AT_ENGINE_3] = 5,     [AT_ENGINE_4] = 5,       [AT_ENGINE_5] = 5,
    [AT_ENGINE_6] = 5,       [AT_ENGINE_7] = 5,     [AT_LAST_ENGINE] = 5,    [AT_REF] = 32,
    [AT_DMA_SEMAPHORE] = 32, [AT_OFFSET_VALID] = 1, [AT_ACQUIRE_VALUE] = 32, [AT_SEMAPHORE_OFFSET] = 32,
    [AT_DMA_MGET_VALID] = 1,
    [AT_SEMAPHORE_ADDRESS] = 32,
    [AT_SEMAPHORE_ADDRESS_HIGH] = 8,
    [AT_SEMAPHORE_SEQUENCE] = 32,
};

/* R32, R34: the part of a channel that only IB mode has. */
static void draw_ib(struct draw *draw, struct channel *channel)
{
    channel->setup.ib_order = draw_below(draw, ORDER_LIMIT + 1);
    channel->ib_get = draw_below(draw, UINT32_C(1) << channel->setup.ib_order);
    channel->ib_put = draw_below(draw, UINT32_C(1) << channel->setup.ib_order);
    channel->get |= (uint64_t)draw_below(draw, 256) << 32;
    channel->put |= (uint64_t)draw_below(draw, 256) << 32;
    channel->dma_mget |= (uint64_t)draw_below(draw, 256) << 32;
}

/* R32, R33, R34, R35: what STATE asks holds of it, and what it doesn't ask need not: a long address may lie
 * between words, and an acquire may have any mode at any level. */
struct channel draw_channel(struct draw *draw, struct setting setting)
{
    struct record record = {{0}};
    struct channel channel;

    for (unsigned i = 0; i < CHANNEL_WORDS; i++)
        if (widths[i] != 0)
            record.word[i] = draw_any_number(draw) >> (32 - widths[i]);
    channel = channel_of(&record);
    channel.setup.setting = setting;
    channel.get -= channel.get % 4;
    channel.put -= channel.put % 4;
    channel.return_address -= channel.return_address % 4;
    channel.acquire_mode = draw_below(draw, ACQUIRE_MODES);
    if (setting.mode == MODE_IB)
        draw_ib(draw, &channel);
    return channel;
}

void set_pusher_error(struct draw *draw, struct channel *channel, uint32_t error)
{
    channel->pusher_error = error;
    if (error == PUSHER_RESERVED_CMD)
        channel->pusher_why = WHY_FORM + draw_below(draw, WHY_SLI);
}

/* ---- Breaches ---- */

/* Where a breach asks for no mode or for no SLI setting. */
enum { ANY = 2 };

/* A number that makes a channel ill-formed, in a mode, SLI setting and ib_order in which nothing else does:
 * the nearest good one, then three bad ones. Among these are such that a narrower type would cut to good
 * ones. */
struct breach {
    uint32_t mode;
    uint32_t sli;
    uint32_t order;
    unsigned at;
    uint64_t numbers[BREACHES];
};

/* R13, R32, R33, R34: every number that STATE asks about. */
static const struct breach breaches[] = {
    /* R34: what opening refuses. */
    {MODE_NV04, ANY, 0, AT_LEVEL, {5, 6, 256, UINT32_MAX}},
    {MODE_IB, ANY, 12, AT_LEVEL, {5, 6, 260, UINT32_MAX}},
    {MODE_NV04, ANY, 0, AT_MODE, {0, 2, 256, UINT32_MAX}},
    {MODE_IB, ANY, 12, AT_MODE, {1, 2, 257, UINT32_MAX}},
    {MODE_IB, false, 12, AT_LEVEL, {4, 3, 2, 0}},
    {MODE_IB, ANY, 12, AT_IB_ORDER, {12, 13, 256, UINT32_MAX}},
    {MODE_NV04, true, 0, AT_LEVEL, {3, 2, 1, 0}},
    /* R34: a ring in NV04-style. */
    {MODE_NV04, ANY, 0, AT_IB_ORDER, {0, 1, 12, UINT32_MAX}},
    /* R32: addresses by the mode. */
    {MODE_NV04, ANY, 0, AT_GET, {0xfffffffc, UINT64_C(1) << 32, UINT64_C(1) << 63, UINT64_MAX - 3}},
    {MODE_NV04, ANY, 0, AT_PUT, {0xfffffffc, UINT64_C(1) << 32, UINT64_C(1) << 63, UINT64_MAX - 3}},
    {MODE_NV04, ANY, 0, AT_DMA_MGET, {0xffffffff, UINT64_C(1) << 32, UINT64_C(1) << 39, UINT64_MAX}},
    {MODE_IB, ANY, 12, AT_GET, {0xfffffffffc, UINT64_C(1) << 40, UINT64_C(1) << 63, UINT64_MAX - 3}},
    {MODE_IB, ANY, 12, AT_PUT, {0xfffffffffc, UINT64_C(1) << 40, UINT64_C(1) << 63, UINT64_MAX - 3}},
    {MODE_IB, ANY, 12, AT_DMA_MGET, {0xffffffffff, UINT64_C(1) << 40, UINT64_C(1) << 63, UINT64_MAX}},
    /* R33: addresses between words. */
    {ANY, ANY, 0, AT_GET, {0, 1, 2, 0xffffffff}},
    {ANY, ANY, 0, AT_PUT, {0, 1, 2, 0xffffffff}},
    {ANY, ANY, 0, AT_RETURN_ADDRESS, {0xfffffffc, 1, 2, 0xffffffff}},
    /* R32: indices by the order. */
    {MODE_IB, ANY, 12, AT_IB_GET, {4095, 4096, 65536, UINT32_MAX}},
    {MODE_IB, ANY, 12, AT_IB_PUT, {4095, 4096, 65536, UINT32_MAX}},
    {MODE_IB, ANY, 5, AT_IB_GET, {31, 32, 256, UINT32_MAX}},
    {MODE_IB, ANY, 5, AT_IB_PUT, {31, 32, 256, UINT32_MAX}},
    {MODE_IB, ANY, 0, AT_IB_GET, {0, 1, 256, UINT32_MAX}},
    {MODE_IB, ANY, 0, AT_IB_PUT, {0, 1, 256, UINT32_MAX}},
    {MODE_NV04, ANY, 0, AT_IB_GET, {0, 1, 256, UINT32_MAX}},
    {MODE_NV04, ANY, 0, AT_IB_PUT, {0, 1, 256, UINT32_MAX}},
    /* R32: widths that are the same in both modes. */
    {ANY, ANY, 0, AT_COUNT, {0xffffff, 0x1000000, 0x80000000, UINT32_MAX}},
    {ANY, ANY, 0, AT_SLI_MASK, {4095, 4096, 65536, UINT32_MAX}},
    {ANY, ANY, 0, AT_METHOD, {2047, 2048, 0x8000, 0xffff}},
    {ANY, ANY, 0, AT_SUBCHANNEL, {7, 8, 256, UINT32_MAX}},
    {ANY, ANY, 0, AT_LAST_ENGINE, {31, 32, 256, UINT32_MAX}},
    {ANY, ANY, 0, AT_ENGINE_0, {31, 32, 256, UINT32_MAX}},
    {ANY, ANY, 0, AT_ENGINE_1, {31, 32, 256, UINT32_MAX}},
    {ANY, ANY, 0, AT_ENGINE_2, {31, 32, 256, UINT32_MAX}},
    {ANY, ANY, 0, AT_ENGINE_3, {31, 32, 256, UINT32_MAX}},
    {ANY, ANY, 0, AT_ENGINE_4, {31, 32, 256, UINT32_MAX}},
    {ANY, ANY, 0, AT_ENGINE_5, {31, 32, 256, UINT32_MAX}},
    {ANY, ANY, 0, AT_ENGINE_6, {31, 32, 256, UINT32_MAX}},
    {ANY, ANY, 0, AT_ENGINE_7, {31, 32, 256, UINT32_MAX}},
    /* R32: a long address has 40 bits in NV04-style too; cut to them, some would be at a word. */
    {MODE_NV04, ANY, 0, AT_SEMAPHORE_ADDRESS, {0xffffffffff, 0x10000000000, UINT64_C(1) << 63, UINT64_MAX}},
    {MODE_IB, ANY, 12, AT_SEMAPHORE_ADDRESS, {0xffffffffff, 0x10000000004, UINT64_C(1) << 63, UINT64_MAX}},
};

unsigned breach_count(void)
{
    return sizeof breaches / sizeof breaches[0];
}

/* A setting that isn't refused, of the mode and with the SLI setting that a breach asks for. */
static struct setting draw_breach_setting(struct draw *draw, const struct breach *breach)
{
    struct setting setting;

    do
        setting = draw_setting(draw);
    while ((breach->mode != ANY && setting.mode != breach->mode) ||
           (breach->sli != ANY && setting.sli != (breach->sli != 0)));
    return setting;
}

static void set_number(struct channel *channel, unsigned at, uint64_t number)
{
    struct record record = record_of(channel);

    record_set(&record, at, number);
    *channel = channel_of(&record);
}

struct channel draw_breach(struct draw *draw, unsigned breach, unsigned which)
{
    const struct breach *row = &breaches[breach];
    struct channel channel = draw_channel(draw, draw_breach_setting(draw, row));

    channel.setup.ib_order = row->order;
    channel.ib_get %= UINT32_C(1) << row->order;
    channel.ib_put %= UINT32_C(1) << row->order;
    set_number(&channel, row->at, row->numbers[which]);
    return channel;
}

void add_breach(struct channel *channel, unsigned breach)
{
    set_number(channel, breaches[breach].at, breaches[breach].numbers[BREACH_NEAR]);
}

/* ---- PUT ---- */

static void put_put(struct vectors *vectors, struct channel channel, uint32_t put)
{
    static struct buffer buffer;
    size_t header;
    uint32_t refusal;

    buffer.count = 0;
    add_channel(vectors, &buffer, &channel);
    add(&buffer, put);
    header = buffer.count++;
    refusal = add_put(&buffer, header, &channel, put);
    put_record(vectors, PUT, buffer.words, buffer.count, refusal);
}

/* S2: a channel for put, of which one in three is stopped, by either half or both. */
static struct channel draw_put_channel(struct draw *draw, struct setting setting)
{
    struct channel channel = draw_channel(draw, setting);

    if (draw_once_in(draw, 3)) {
        set_pusher_error(draw, &channel, draw_below(draw, 7));
        channel.puller_error = draw_below(draw, 7);
    }
    channel.acquire_active = draw_once_in(draw, 3);
    return channel;
}

/* R35, S2, S33: stopped with each why at a setting, be it one that no word has there: put is set all the
 * same. */
static void put_puts_stopped(struct vectors *vectors, struct setting setting)
{
    for (uint32_t why = WHY_FORM; why <= WHY_SLI; why++) {
        struct channel channel = draw_channel(&vectors->draw, setting);

        channel.pusher_error = PUSHER_RESERVED_CMD;
        channel.pusher_why = why;
        put_put(vectors, channel, 0);
    }
}

/* R7, S2: puts between words, and at both ends of 32 bits. */
static void put_puts_nv04(struct vectors *vectors, struct setting setting)
{
    static const uint32_t puts[] = {0,          1,          2,          3,          4,         0x7ffffffc,
                                    0x80000000, 0xfffffffc, 0xfffffffd, 0xfffffffe, 0xffffffff};

    for (unsigned i = 0; i < 3; i++)
        for (unsigned j = 0; j < sizeof puts / sizeof puts[0]; j++)
            put_put(vectors, draw_put_channel(&vectors->draw, setting), puts[j]);
    for (unsigned i = 0; i < 6; i++) {
        struct channel channel = draw_put_channel(&vectors->draw, setting);

        put_put(vectors, channel, draw_number(&vectors->draw) & ~UINT32_C(3));
        put_put(vectors, channel, (uint32_t)channel.put);
    }
}

/* R7, S2: puts around the ring's end, for every order. */
static void put_puts_ib(struct vectors *vectors, struct setting setting)
{
    for (uint32_t order = 0; order <= ORDER_LIMIT; order++) {
        uint32_t places = UINT32_C(1) << order;
        uint32_t puts[] = {0, places / 2, places - 1, places, places + 1, 65536 + places / 2, UINT32_MAX};

        for (unsigned i = 0; i < sizeof puts / sizeof puts[0]; i++) {
            struct channel channel = draw_put_channel(&vectors->draw, setting);

            channel.setup.ib_order = order;
            channel.ib_get %= places;
            channel.ib_put %= places;
            put_put(vectors, channel, puts[i]);
        }
    }
}

/* R13, R26, R31: a put that is good in both modes, and one that is bad. */
static void put_puts_ill_formed(struct vectors *vectors)
{
    struct draw *draw = &vectors->draw;

    for (unsigned breach = 0; breach < breach_count(); breach++)
        for (unsigned which = 0; which < BREACHES; which++) {
            put_put(vectors, draw_breach(draw, breach, which), 0);
            put_put(vectors, draw_breach(draw, breach, which), UINT32_MAX);
        }
    for (unsigned i = 0; i < 2 * breach_count(); i++) {
        struct channel channel = draw_breach(draw, i / 2, BREACH_NEAR);

        add_breach(&channel, draw_below(draw, breach_count()));
        put_put(vectors, channel, i % 2 == 0 ? 0 : UINT32_MAX);
    }
}

void put_puts(struct vectors *vectors)
{
    for (uint32_t i = 0; i < 24; i++) {
        struct setting setting = {i / 4, i / 2 % 2, i % 2 == 1};

        if (model_setting_refusal(setting) != REFUSAL_NONE)
            continue;
        if (setting.mode == MODE_IB)
            put_puts_ib(vectors, setting);
        else
            put_puts_nv04(vectors, setting);
        put_puts_stopped(vectors, setting);
    }
    put_puts_ill_formed(vectors);
    for (unsigned i = 0; i < 380; i++) {
        struct setting setting = draw_setting(&vectors->draw);
        struct channel channel = draw_put_channel(&vectors->draw, setting);

        put_put(vectors, channel, draw_any_number(&vectors->draw) >> (setting.mode == MODE_IB ? 20 : 0));
    }
}

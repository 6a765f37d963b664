/* The self-test of the model of the channel: the rules as cases worked out by hand, the printed example,
 * second readings of opening, of where a word is read, of why one is reserved, of long semaphores and of
 * STATE, and what must hold of any run. */
#include <inttypes.h>
#include <stdio.h>
#include <stdlib.h>
#include <string.h>

#include "channel.h"
#include "draw.h"
#include "record.h"

static uint64_t checks;

/* Counts a check; the first that fails is named and ends the run. */
static void check(bool good, const char *sentence, uint32_t level, uint32_t mode)
{
    checks++;
    if (good)
        return;
    fprintf(stderr, "channel model: failed: %s (level %" PRIu32 ", mode %" PRIu32 ")\n", sentence, level,
            mode);
    exit(1);
}

static bool same_channel(const struct channel *a, const struct channel *b)
{
    struct record first = record_of(a);
    struct record second = record_of(b);

    return memcmp(&first, &second, sizeof first) == 0;
}

static bool same_answer(struct answer a, struct answer b)
{
    return a.refusal == b.refusal && a.kind == b.kind && a.fields == b.fields &&
           a.subchannel == b.subchannel && a.method == b.method && a.parameter == b.parameter;
}

static struct answer plain(uint32_t kind)
{
    return (struct answer){.kind = kind};
}

static struct answer refused(uint32_t refusal)
{
    return (struct answer){.refusal = refusal};
}

static struct answer method(uint32_t kind, uint32_t subchannel, uint32_t number, uint32_t parameter)
{
    return (struct answer){REFUSAL_NONE, kind, true, subchannel, number, parameter};
}

/* ---- The scene of a case ---- */

/* P1: handle, engine, address, class. The bits that have no meaning are set in some. */
static const uint32_t objects[] = {
    0x100, 0x05,       0xa0, 0x30002,    /* a good semaphore object, engine 5 */
    0x200, 0xffffffe0, 0xa1, 0x30002,    /* engine 0 */
    0x300, 0x1f,       0xa2, 0x30003,    /* class not 2, engine 31 */
    0x400, 0x06,       0xa3, 0x20002,    /* not write-only */
    0x500, 0x07,       0xa4, 0x10002,    /* page table absent */
    0x600, 0xffffffe8, 0xa5, 0xffff0002, /* good, engine 8 */
    0x700, 0x09,       0x00, 0x30002,    /* address 0 */
    0x100, 0x0a,       0xa7, 0x30002,    /* the first one's handle again */
};

enum { SEMAPHORES = 8 };

/* The memory lent to each case, the semaphore words expected after it, and what of it is lent. */
static struct {
    uint32_t words[8];
    uint64_t entries[4];
    uint32_t semaphores[SEMAPHORES];
    uint32_t expected[SEMAPHORES];
    struct lent lent;
} scene;

/* A fresh scene, and a channel that was opened: order 2, no limit, mask 5. */
static struct channel at(uint32_t level, uint32_t mode, bool sli)
{
    struct setup setup = {{level, mode, sli}, mode == MODE_IB ? 2 : 0, UINT32_MAX, 5};
    struct channel channel;

    memset(&scene, 0, sizeof scene);
    for (uint32_t i = 0; i < SEMAPHORES; i++)
        scene.semaphores[i] = scene.expected[i] = 10 + i;
    scene.lent = (struct lent){.words = scene.words,
                               .word_count = 8,
                               .entries = scene.entries,
                               .entry_count = 4,
                               .table = objects,
                               .table_count = sizeof objects / sizeof objects[0],
                               .semaphores = scene.semaphores,
                               .semaphore_count = SEMAPHORES,
                               .clock = UINT64_C(0x0000000a0000000b)};
    check(model_open(&channel, setup, NULL, 0).refusal == REFUSAL_NONE, "a channel opens", level, mode);
    return channel;
}

/* A channel that is about to read word 0 of eight. */
static struct channel reading(uint32_t level, uint32_t mode, bool sli)
{
    struct channel channel = at(level, mode, sli);

    channel.put = 32;
    return channel;
}

/* A channel that is about to read word 0 as the first of two parameters of a non-increasing method. The
 * puller's numbers are set, so that what must stay is seen to. */
static struct channel taking(uint32_t level, uint32_t number, uint32_t parameter)
{
    struct channel channel = reading(level, MODE_NV04, false);

    channel.count = 2;
    channel.subchannel = 3;
    channel.method = number / 4;
    channel.last_engine = 17;
    channel.engines[2] = 18;
    channel.engines[3] = 19;
    channel.engines[4] = 20;
    channel.ref = 21;
    channel.semaphore_address = UINT64_C(0xa987654321);
    channel.semaphore_sequence = 22;
    channel.acquire_value = 23;
    channel.acquire_mode = ACQUIRE_GREATER;
    scene.words[0] = parameter;
    return channel;
}

/* S11, S12: the channel after the word at an address is read. In IB mode dma_mget follows, unless NOT_MAIN is
 * set. */
static struct channel advanced_from(struct channel channel, uint64_t address)
{
    channel.get = address + 4;
    if (channel.setup.setting.mode == MODE_IB && !channel.not_main) {
        channel.dma_mget = address + 4;
        channel.dma_mget_valid = true;
    }
    return channel;
}

/* S11, S12: the same for word 0. */
static struct channel advanced(struct channel channel)
{
    return advanced_from(channel, 0);
}

/* S25: the channel after word 0 is taken as a parameter, as far as the pusher goes. */
static struct channel submitted(struct channel channel)
{
    channel = advanced(channel);
    channel.count--;
    if (channel.increasing)
        channel.method++;
    return channel;
}

static struct channel pusher_stopped(struct channel channel, uint32_t error)
{
    channel.pusher_error = error;
    return channel;
}

/* S33: stopped at a reserved word, for a why. */
static struct channel reserved_stopped(struct channel channel, uint32_t why)
{
    channel.pusher_why = why;
    return pusher_stopped(channel, PUSHER_RESERVED_CMD);
}

static struct channel puller_stopped(struct channel channel, uint32_t error)
{
    channel.puller_error = error;
    return channel;
}

/* S13, S29, P3: one step leads from one channel to the other, every field of it, with this answer, and to the
 * semaphore words expected. */
static void steps(const char *sentence, struct channel before, struct answer answer, struct channel after)
{
    struct setting setting = before.setup.setting;
    struct answer got = model_step(&before, &scene.lent);

    check(same_answer(got, answer), sentence, setting.level, setting.mode);
    check(same_channel(&before, &after), sentence, setting.level, setting.mode);
    check(memcmp(scene.semaphores, scene.expected, sizeof scene.expected) == 0, sentence, setting.level,
          setting.mode);
}

/* ---- Opening ---- */

enum { OPENINGS = 7 };

/* R1, R2, R3, R4, R5, R6, R10, R21, R25: the conditions of opening, in their order, each by itself. */
static uint32_t first_of_opening(struct setup setup, size_t count, bool repeats)
{
    static const uint32_t numbers[OPENINGS] = {1, 2, 3, 4, 10, 5, 6};
    struct setting setting = setup.setting;
    bool conditions[OPENINGS] = {
        setting.level > 5,
        setting.mode > 1 || (setting.mode == 1 && setting.level < 4),
        setting.mode == 1 && setup.ib_order > 12,
        setting.sli && setting.level<3, setup.sli_mask> 4095,
        count % 4 != 0 || count > 4096,
        repeats,
    };

    for (unsigned i = 0; i < OPENINGS; i++)
        if (conditions[i])
            return numbers[i];
    return REFUSAL_NONE;
}

/* R30, S1: what opening must leave, the blank channel or a fresh one. */
static struct channel opened_as(struct setup setup, uint32_t refusal)
{
    struct channel channel = {0};

    if (refusal != REFUSAL_NONE)
        return channel;
    if (setup.setting.mode == MODE_NV04)
        setup.ib_order = 0;
    channel.setup = setup;
    channel.sli_active = true;
    return channel;
}

/* R5, R6, R25: opening over tables of every length at issue, the handles rising, without a repeat and with
 * one. */
static void test_opening_tables(struct setup setup)
{
    static const size_t counts[] = {0, 3, 4, 8, 4092, 4096, 4097, 4099, 4100};
    static uint32_t table[4100];

    for (unsigned i = 0; i < 2 * sizeof counts / sizeof counts[0]; i++) {
        size_t count = counts[i / 2];
        bool repeats = i % 2 == 1 && count >= 8;
        struct channel channel, wanted;
        struct opened opened;
        uint32_t refusal;

        for (uint32_t j = 0; j < count; j++)
            table[j] = j;
        if (repeats)
            table[4 * (count / 4 - 1)] = 0;
        opened = model_open(&channel, setup, table, count);
        refusal = first_of_opening(setup, count, repeats);
        wanted = opened_as(setup, refusal);
        check(opened.refusal == refusal, "the order of opening", setup.setting.level, setup.setting.mode);
        check(opened.entry == (refusal == REFUSAL_DUPLICATE ? count / 4 - 1 : 0), "the entry",
              setup.setting.level, setup.setting.mode);
        check(same_channel(&channel, &wanted), "blank or fresh", setup.setting.level, setup.setting.mode);
    }
}

/* R1, R2, R3, R4, R10, R25: opening with every number at issue, and those that a narrower type would cut to
 * good ones. */
static void test_opening(void)
{
    static const uint32_t levels[] = {0, 2, 3, 4, 5, 6, 256, 260, UINT32_MAX};
    static const uint32_t modes[] = {MODE_NV04, MODE_IB, 2, 256, 257, UINT32_MAX};
    static const uint32_t orders[] = {0, 12, 13, 256, UINT32_MAX};
    static const uint32_t masks[] = {0, 4095, 4096, 65536};

    for (unsigned i = 0; i < 9; i++)
        for (unsigned j = 0; j < 6; j++)
            for (unsigned k = 0; k < 5; k++)
                for (unsigned l = 0; l < 8; l++) {
                    struct setting setting = {levels[i], modes[j], l >= 4};

                    test_opening_tables((struct setup){setting, orders[k], 99, masks[l % 4]});
                }
}

/* R6: which of several entries is told. */
static void test_repeats(void)
{
    static const struct {
        uint32_t handles[6];
        uint32_t entry;
    } rows[] = {
        {{1, 1, 2, 3, 4, 5}, 1}, {{1, 2, 3, 4, 5, 5}, 5}, {{0, 2, 3, 4, 5, 0}, 5},
        {{1, 2, 2, 4, 5, 1}, 2}, {{1, 2, 3, 2, 1, 3}, 3}, {{7, 7, 7, 7, 7, 7}, 1},
    };

    for (size_t i = 0; i < sizeof rows / sizeof rows[0]; i++) {
        /* The other words of the entries repeat as they like. */
        uint32_t table[24] = {0};
        struct setup setup = {{3, MODE_NV04, false}, 0, 0, 0};
        struct channel channel;
        struct opened opened;

        for (unsigned j = 0; j < 6; j++)
            table[4 * j] = rows[i].handles[j];
        opened = model_open(&channel, setup, table, 24);
        check(opened.refusal == REFUSAL_DUPLICATE && opened.entry == rows[i].entry, "DUPLICATE", 3, 0);
        opened = model_open(&channel, setup, table, 4 * rows[i].entry);
        check(opened.refusal == REFUSAL_NONE, "entries that aren't lent repeat nothing", 3, 0);
    }
}

/* ---- Put ---- */

/* S2: setting put leads from one channel to the other, every field of it, with this refusal. */
static void sets_put(const char *sentence, struct channel before, uint32_t put, uint32_t refusal,
                     struct channel after)
{
    struct setting setting = before.setup.setting;

    check(model_set_put(&before, put) == refusal, sentence, setting.level, setting.mode);
    check(same_channel(&before, &after), sentence, setting.level, setting.mode);
}

/* R7, R26, R31, S2, S4: puts at the limits of either mode, on a stopped channel and on one that is
 * refused. */
static void test_put(void)
{
    struct channel nv04 = at(5, MODE_NV04, false);
    struct channel ib = at(5, MODE_IB, false);
    struct channel after = nv04;

    after.put = 0xfffffffc;
    sets_put("NV04-style: a word's address", nv04, 0xfffffffc, REFUSAL_NONE, after);
    for (uint32_t put = 1; put < 4; put++)
        sets_put("NV04-style: no word's address", nv04, put, REFUSAL_PUT, nv04);
    nv04.puller_error = PULLER_NO_HASH;
    after.puller_error = PULLER_NO_HASH;
    sets_put("a stopped channel takes another put", nv04, 0xfffffffc, REFUSAL_NONE, after);
    steps("a stopped channel with another put", after, plain(KIND_STOPPED), after);
    nv04.subchannel = 8;
    sets_put("STATE before PUT", nv04, 1, REFUSAL_STATE, nv04);

    after = ib;
    after.ib_put = 3;
    sets_put("IB: the ring's last place", ib, 3, REFUSAL_NONE, after);
    sets_put("IB: a place past the ring", ib, 4, REFUSAL_PUT, ib);
    ib.setup.ib_order = 0;
    sets_put("order 0 holds one place", ib, 0, REFUSAL_NONE, ib);
    sets_put("order 0 holds one place", ib, 1, REFUSAL_PUT, ib);
    ib.setup.ib_order = 13;
    sets_put("STATE before PUT", ib, UINT32_MAX, REFUSAL_STATE, ib);
}

/* ---- The order of a step ---- */

/* A channel that could do each of the five: words and entries wait, an acquire is active. */
static struct channel busy(uint32_t level)
{
    struct channel channel = reading(level, MODE_IB, true);

    channel.ib_put = 3;
    channel.acquire_active = true;
    channel.acquire_value = 10;
    scene.words[0] = 0x00040100;
    scene.entries[0] = UINT64_C(0x00000e0000001000);
    return channel;
}

/* S3, S4, S5, S6, S7, S8: of five things to do the first is done, one after the other. */
static void test_step_order(uint32_t level)
{
    struct channel channel = busy(level);
    struct channel after;

    for (uint32_t error = 1; error <= 6; error++) {
        after = pusher_stopped(channel, error);
        after.pusher_why = error == PUSHER_RESERVED_CMD ? WHY_MODE : WHY_NONE;
        steps("stopped comes first", after, plain(KIND_STOPPED), after);
        after = puller_stopped(channel, error);
        steps("stopped comes first", after, plain(KIND_STOPPED), after);
    }
    after = channel;
    after.acquire_active = false;
    steps("a retry comes before a word", channel, plain(KIND_ACQUIRE), after);

    channel = after;
    after = advanced(channel);
    after.count = 1;
    after.method = 0x100 / 4;
    after.increasing = true;
    steps("a word comes before an entry", channel, plain(KIND_COMMAND), after);

    channel.put = 0;
    after = channel;
    after.ib_get = 1;
    after.get = 0x1000;
    after.put = 0x100c;
    after.not_main = true;
    steps("an entry comes before idle", channel, plain(KIND_ENTRY), after);

    channel.ib_put = 0;
    steps("nothing is left to do", channel, plain(KIND_IDLE), channel);
}

/* R5, R8, R13, R21, R27, R31: the order of a step. A refusal comes before all that a step does, also on a
 * stopped channel. */
static void test_step_refusals(void)
{
    static uint32_t many[SIZE_LIMIT + 1];
    struct channel channel = pusher_stopped(busy(4), PUSHER_IB);
    struct channel broken = channel;

    broken.count = 1 << 24;
    scene.lent.words = many;
    scene.lent.word_count = SIZE_LIMIT + 1;
    scene.lent.table_count = 3;
    steps("STATE before SIZE", broken, refused(REFUSAL_STATE), broken);
    steps("SIZE before TABLE", channel, refused(REFUSAL_SIZE), channel);
    scene.lent.word_count = SIZE_LIMIT;
    steps("1,048,576 words are not over", channel, refused(REFUSAL_TABLE), channel);
    steps("STATE before TABLE", broken, refused(REFUSAL_STATE), broken);
    scene.lent.semaphores = many;
    scene.lent.semaphore_count = SIZE_LIMIT + 1;
    steps("1,048,577 semaphore words", channel, refused(REFUSAL_SIZE), channel);
    scene.lent.semaphore_count = SIZE_LIMIT;
    scene.lent.table = many;
    scene.lent.table_count = 4097;
    steps("a table with a part entry", channel, refused(REFUSAL_TABLE), channel);
    scene.lent.table_count = 4100;
    steps("a table of 4,100 words", channel, refused(REFUSAL_TABLE), channel);
    scene.lent.table_count = 4096;
    steps("4,096 words are not over; one handle many times", channel, plain(KIND_STOPPED), channel);
}

/* ---- Words ---- */

/* S9, S11, S12: each word by its address. Its count is its place plus one. */
static void test_addresses(uint32_t mode)
{
    for (uint32_t place = 0; place < 8; place++) {
        struct channel channel = reading(5, mode, false);
        struct channel after;

        for (uint32_t i = 0; i < 8; i++)
            scene.words[i] = (i + 1) << 18;
        channel.get = 4 * place;
        after = advanced(channel);
        after.count = place + 1;
        after.increasing = true;
        after.get = 4 * place + 4;
        if (mode == MODE_IB)
            after.dma_mget = after.get;
        steps("the word at an address, and the address after it", channel, plain(KIND_COMMAND), after);
    }
}

/* S10, S27, S28: limits below, at and above the read address 8, at the last lent word and past it. Those
 * below stop NV04-style alone, and none lets a word be read that isn't lent. */
static void test_protection(uint32_t level, uint32_t mode)
{
    static const struct {
        uint32_t limit;
        bool is_below;
    } rows[] = {{0, true},           {1, true},           {4, true},          {7, true},
                {8, false},          {9, false},          {11, false},        {12, false},
                {0x7fffffff, false}, {0x80000000, false}, {UINT32_MAX, false}};

    for (unsigned i = 0; i < sizeof rows / sizeof rows[0]; i++) {
        struct channel channel = reading(level, mode, false);

        channel.get = 8;
        channel.setup.dma_limit = rows[i].limit;
        scene.lent.word_count = 3;
        if (mode == MODE_NV04 && rows[i].is_below)
            steps("PROTECTION past the limit", channel, plain(KIND_ERROR),
                  pusher_stopped(channel, PUSHER_PROTECTION));
        else
            steps("a word within the limit, or in IB mode past it", channel, plain(KIND_COMMAND),
                  advanced_from(channel, 8));
        for (size_t count = 0; count <= 2; count++) {
            scene.lent.word_count = count;
            steps("PROTECTION past the lent words, whatever the limit", channel, plain(KIND_ERROR),
                  pusher_stopped(channel, PUSHER_PROTECTION));
        }
    }
}

/* S10: limits at both ends of 32 bits and between them. */
static const uint32_t limits[] = {0, 4, 0x1f, 0x7fffffff, 0x80000000, UINT32_MAX};

enum { LIMITS = sizeof limits / sizeof limits[0] };

/* S9, S10: addresses past the lent words, all but one past any memory. Most would be at a lent word if they
 * or their places were cut to 32 bits or fewer; others are the last before such a number wraps. */
static const uint64_t far_words[] = {0x20,         0x400000,     0x400004,     0x40000000,
                                     0x80000000,   0xfffffffc,   0x100000000,  0x100000004,
                                     0x10000001c,  0x3fffffffc,  0x400000000,  0x400000004,
                                     0x8000000000, 0x8000000004, 0xff00000008, 0xfffffffffc};

enum { FAR_WORDS = sizeof far_words / sizeof far_words[0] };

/* S10: no limit makes such an address one that is read. NV04-style has those of 32 bits. */
static void test_protection_far(void)
{
    for (unsigned i = 0; i < 2 * 2 * LIMITS * FAR_WORDS; i++) {
        uint64_t address = far_words[i / 4 / LIMITS];
        struct channel channel = at(4 + i % 2, i / 2 % 2 == 0 ? MODE_NV04 : MODE_IB, false);

        if (i / 2 % 2 == 0 && address > UINT32_MAX)
            continue;
        channel.get = address;
        channel.setup.dma_limit = limits[i / 4 % LIMITS];
        steps("PROTECTION far past the lent words", channel, plain(KIND_ERROR),
              pusher_stopped(channel, PUSHER_PROTECTION));
    }
}

/* S10, S12, S17, S28: the limit that the rules work through: two words that are lent, and the read
 * address 4. */
static void test_worked_limit(void)
{
    struct channel nv04 = at(4, MODE_NV04, false);
    struct channel ib = at(4, MODE_IB, false);
    struct channel after;

    scene.lent.word_count = 2;
    nv04.setup.dma_limit = ib.setup.dma_limit = 0;
    nv04.get = ib.get = 4;
    nv04.put = ib.put = 12;
    after = nv04;
    after.pusher_error = PUSHER_PROTECTION;
    steps("in NV04-style 4 is above the limit", nv04, plain(KIND_ERROR), after);
    steps("and there it stays", after, plain(KIND_STOPPED), after);
    after = ib;
    after.get = 8;
    after.dma_mget = 8;
    after.dma_mget_valid = true;
    steps("in IB mode the word at place 1 is read", ib, plain(KIND_COMMAND), after);
    steps("and none at place 2", after, plain(KIND_ERROR), pusher_stopped(after, PUSHER_PROTECTION));
    nv04.get = ib.get = 8;
    steps("nor in NV04-style", nv04, plain(KIND_ERROR), pusher_stopped(nv04, PUSHER_PROTECTION));
    nv04.setup.dma_limit = ib.setup.dma_limit = UINT32_MAX;
    steps("nor with the largest limit", nv04, plain(KIND_ERROR), pusher_stopped(nv04, PUSHER_PROTECTION));
    steps("nor with the largest limit", ib, plain(KIND_ERROR), pusher_stopped(ib, PUSHER_PROTECTION));
}

/* S14, S15: one and the same word as a count, as a parameter and as a command. */
static void test_roles(uint32_t mode)
{
    struct channel channel = reading(4, mode, false);
    struct channel after;

    scene.words[0] = 0xff000050;
    channel.count = 3;
    channel.method = 0x50 / 4;
    channel.count_awaited = true;
    after = advanced(channel);
    after.count = 0x50;
    after.count_awaited = false;
    steps("a count that is awaited", channel, plain(KIND_COUNT), after);

    channel.count_awaited = false;
    after = submitted(channel);
    after.ref = 0xff000050;
    steps("a parameter, since three are to come", channel, method(KIND_REF, 0, 0x50, 0xff000050), after);

    channel.count = 1;
    after = submitted(channel);
    after.ref = 0xff000050;
    steps("the last parameter", channel, method(KIND_REF, 0, 0x50, 0xff000050), after);

    channel.count = 0;
    steps("a command, since none is to come", channel, plain(KIND_ERROR),
          reserved_stopped(advanced(channel), WHY_FORM));
}

/* S16, S17: runs, and commands without a parameter. */
static void test_method_commands(uint32_t mode)
{
    struct channel channel = reading(5, mode, false);
    struct channel after = advanced(channel);

    channel.method = after.method = 9;
    channel.subchannel = after.subchannel = 6;
    scene.words[0] = 0x00002180;
    steps("count 0 leaves the run as it was", channel, plain(KIND_COMMAND), after);
    scene.words[0] = 0x40002180;
    channel.increasing = after.increasing = true;
    steps("count 0 leaves the run as it was", channel, plain(KIND_COMMAND), after);

    scene.words[0] = 0x400cfffc;
    after.count = 3;
    after.subchannel = 7;
    after.method = 0x7ff;
    after.increasing = false;
    steps("non-increasing 3, subchannel 7, 0x1ffc", channel, plain(KIND_COMMAND), after);

    channel.increasing = false;
    scene.words[0] = 0x1ffc2180;
    after.count = 0x7ff;
    after.subchannel = 1;
    after.method = 0x180 / 4;
    after.increasing = true;
    steps("increasing 2047, subchannel 1, 0x0180", channel, plain(KIND_COMMAND), after);
}

/* S18, S23, S33: a long form, which NV04-style doesn't have. */
static void test_long(void)
{
    struct channel channel = reading(4, MODE_IB, false);
    struct channel after;

    channel.increasing = true;
    scene.words[0] = 0x00034100;
    after = advanced(channel);
    after.subchannel = 2;
    after.method = 0x100 / 4;
    after.increasing = false;
    after.count_awaited = true;
    steps("long, subchannel 2, 0x0100", channel, plain(KIND_COMMAND), after);

    channel = reading(4, MODE_NV04, false);
    scene.words[0] = 0x00034100;
    steps("a long form in NV04-style", channel, plain(KIND_ERROR),
          reserved_stopped(advanced(channel), WHY_MODE));
}

/* S19, S23, S33: an SLI conditional, with SLI on and off. */
static void test_conditional(uint32_t level, uint32_t mode)
{
    static const struct {
        uint32_t word;
        bool active;
    } rows[] = {{0x00010050, true}, {0x000100a0, false}, {0x00010000, false}, {0x0001fff0, true},
                {0x00010010, true}, {0x00010020, false}, {0x00010040, true},  {0x00018000, false}};
    struct channel channel;

    for (unsigned i = 0; i < 2 * sizeof rows / sizeof rows[0]; i++) {
        struct channel after;

        channel = reading(level, mode, true);
        channel.sli_active = i % 2 == 1;
        scene.words[0] = rows[i / 2].word;
        after = advanced(channel);
        after.sli_active = rows[i / 2].active;
        steps("an SLI conditional", channel, plain(KIND_COMMAND), after);
    }
    channel = reading(level, mode, false);
    scene.words[0] = 0x00010050;
    steps("an SLI conditional with SLI off", channel, plain(KIND_ERROR),
          reserved_stopped(advanced(channel), WHY_SLI));
}

/* ---- Jump, call, return ---- */

/* W9, W10, S20, S23, S33: jumps, also below the level that has them. */
static void test_jumps(uint32_t level)
{
    struct channel channel = reading(level, MODE_NV04, false);
    struct channel after = advanced(channel);

    scene.words[0] = 0x3ffffffc;
    after.get = 0x1ffffffc;
    steps("old jump", channel, plain(KIND_COMMAND), after);
    scene.words[0] = 0x20000000;
    after.get = 0;
    steps("old jump to itself", channel, plain(KIND_COMMAND), after);
    scene.words[0] = 0x00010001;
    after.get = 0x00010000;
    if (level >= 2)
        steps("a jump, whatever its upper half", channel, plain(KIND_COMMAND), after);
    else
        steps("a jump below level 2", channel, plain(KIND_ERROR),
              reserved_stopped(advanced(channel), WHY_LEVEL));
    scene.words[0] = 0xfffffffd;
    after.get = 0xfffffffc;
    if (level >= 2)
        steps("a jump has 32 bits", channel, plain(KIND_COMMAND), after);
}

/* S21, S23, S28, S33: a call, also inside a subroutine and below the level that has it. */
static void test_call(uint32_t level)
{
    struct channel channel = reading(level, MODE_NV04, false);
    struct channel after = advanced(channel);

    scene.words[0] = 0x00002002;
    channel.return_address = after.return_address = 0x44;
    if (level < 2) {
        steps("a call below level 2", channel, plain(KIND_ERROR), reserved_stopped(after, WHY_LEVEL));
        return;
    }
    after.return_address = 4;
    after.subroutine = true;
    after.get = 0x2000;
    steps("a call", channel, plain(KIND_COMMAND), after);
    channel.subroutine = true;
    steps("a call inside a subroutine", channel, plain(KIND_ERROR),
          pusher_stopped(advanced(channel), PUSHER_CALL));
}

/* S22, S23, S28, S33: a return, also outside of a subroutine and below the level that has it. */
static void test_return(uint32_t level)
{
    struct channel channel = reading(level, MODE_NV04, false);
    struct channel after = advanced(channel);

    scene.words[0] = 0x00020000;
    channel.return_address = after.return_address = 0x44;
    if (level < 2) {
        steps("a return below level 2", channel, plain(KIND_ERROR), reserved_stopped(after, WHY_LEVEL));
        return;
    }
    steps("a return outside of a subroutine", channel, plain(KIND_ERROR),
          pusher_stopped(after, PUSHER_RETURN));
    channel.subroutine = true;
    after.get = 0x44;
    steps("a return", channel, plain(KIND_COMMAND), after);
}

/* S12, S23, S28, S33: the forms that IB mode doesn't have, and words of no form. The advance is made all the
 * same, and dma_mget with it unless NOT_MAIN is set. */
static void test_flow_in_ib(void)
{
    static const struct {
        uint32_t word;
        uint32_t why;
    } rows[] = {{0x20000000, WHY_MODE}, {0x00000001, WHY_MODE}, {0x00000002, WHY_MODE},
                {0x00020000, WHY_MODE}, {0x00000003, WHY_FORM}, {0x80000000, WHY_FORM}};

    for (unsigned i = 0; i < 2 * sizeof rows / sizeof rows[0]; i++) {
        struct channel channel = reading(5, MODE_IB, true);

        channel.subroutine = i % 2 == 1;
        channel.not_main = i % 2 == 1;
        channel.dma_mget = 0x77;
        scene.words[0] = rows[i / 2].word;
        steps("RESERVED_CMD in IB mode", channel, plain(KIND_ERROR),
              reserved_stopped(advanced(channel), rows[i / 2].why));
    }
}

/* ---- Why a word is reserved ---- */

/* S23, S33: a word at a setting, and the why with which it stops a channel. A subroutine is active, so that a
 * return is an error of no other kind. */
static const struct {
    const char *sentence;
    struct setting setting;
    uint32_t word;
    uint32_t why;
} reserved_rows[] = {
    {"no form at level 0", {0, MODE_NV04, false}, 0x00000003, WHY_FORM},
    {"no form at level 5", {5, MODE_NV04, true}, 0x00020004, WHY_FORM},
    {"no form in IB mode", {4, MODE_IB, false}, 0x00020004, WHY_FORM},
    {"nearly an SLI conditional, with SLI off", {3, MODE_NV04, false}, 0x00010008, WHY_FORM},
    {"nearly a long form in NV04-style", {3, MODE_NV04, false}, 0x80030000, WHY_FORM},
    {"non-increasing at level 0", {0, MODE_NV04, false}, 0x400cfffc, WHY_LEVEL},
    {"a return at level 1", {1, MODE_NV04, false}, 0x00020000, WHY_LEVEL},
    {"a jump at level 1", {1, MODE_NV04, false}, 0x00010001, WHY_LEVEL},
    {"a call at level 0", {0, MODE_NV04, false}, 0x00002002, WHY_LEVEL},
    {"an SLI conditional at level 0", {0, MODE_NV04, false}, 0x00010050, WHY_LEVEL},
    {"an SLI conditional at level 1", {1, MODE_NV04, false}, 0x0001fff0, WHY_LEVEL},
    {"an SLI conditional at level 2", {2, MODE_NV04, false}, 0x00010000, WHY_LEVEL},
    {"an SLI conditional at level 3", {3, MODE_NV04, false}, 0x00010050, WHY_SLI},
    {"an SLI conditional at level 5", {5, MODE_NV04, false}, 0x00010050, WHY_SLI},
    {"an SLI conditional in IB mode", {4, MODE_IB, false}, 0x00010050, WHY_SLI},
    {"a long form at level 0", {0, MODE_NV04, false}, 0x00034100, WHY_MODE},
    {"a long form at level 1", {1, MODE_NV04, false}, 0x00034100, WHY_MODE},
    {"a long form at level 2", {2, MODE_NV04, false}, 0x00034100, WHY_MODE},
    {"a long form at level 3", {3, MODE_NV04, true}, 0x00034100, WHY_MODE},
    {"a long form at level 4", {4, MODE_NV04, false}, 0x00034100, WHY_MODE},
    {"a long form at level 5", {5, MODE_NV04, true}, 0x0003fffc, WHY_MODE},
    {"an old jump in IB mode", {4, MODE_IB, true}, 0x3ffffffc, WHY_MODE},
    {"a return in IB mode", {5, MODE_IB, false}, 0x00020000, WHY_MODE},
    {"a call in IB mode", {5, MODE_IB, true}, 0x00002002, WHY_MODE},
};

/* S2, S4, S33: a channel that is stopped with a why stays so, and takes another put as any does. */
static void keeps_why(struct channel channel)
{
    bool is_ib = channel.setup.setting.mode == MODE_IB;
    struct channel after = channel;

    steps("it stays stopped for that why", channel, plain(KIND_STOPPED), channel);
    if (is_ib)
        after.ib_put = 3;
    else
        after.put = 8;
    sets_put("another put leaves the why", channel, is_ib ? 3 : 8, REFUSAL_NONE, after);
    steps("it is stopped then too", after, plain(KIND_STOPPED), after);
}

/* S23, S28, S33: the error is 4 with any why, and what stopped the channel stays. */
static void test_reserved_rows(void)
{
    for (size_t i = 0; i < sizeof reserved_rows / sizeof reserved_rows[0]; i++) {
        struct setting setting = reserved_rows[i].setting;
        struct channel channel = reading(setting.level, setting.mode, setting.sli);
        struct channel after;

        channel.subroutine = true;
        scene.words[0] = reserved_rows[i].word;
        after = reserved_stopped(advanced(channel), reserved_rows[i].why);
        check(after.pusher_error == 4, "one number for all whys", setting.level, setting.mode);
        steps(reserved_rows[i].sentence, channel, plain(KIND_ERROR), after);
        keeps_why(after);
    }
}

/* R13, R35, S33: any why of RESERVED_CMD at any setting, also one that no word has there, is no STATE; nor
 * does it keep STATE back where another number is. */
static void test_stored_whys(uint32_t level, uint32_t mode, bool sli)
{
    for (uint32_t why = WHY_FORM; why <= WHY_SLI; why++) {
        struct channel channel = reserved_stopped(reading(level, mode, sli), why);

        keeps_why(channel);
        keeps_why(puller_stopped(channel, PULLER_NO_HASH));
        channel.subchannel = 8;
        steps("STATE for another reason", channel, refused(REFUSAL_STATE), channel);
    }
}

/* W1 to W8, W11: the forms by their fixed bits, with the level that each begins at, its modes, bit 0 for
 * NV04-style and bit 1 for IB, and whether it asks for SLI. */
static const struct {
    uint32_t mask;
    uint32_t bits;
    uint32_t level;
    uint32_t modes;
    bool needs_sli;
} forms[] = {
    {0xe0030003, 0x00000000, 0, 3, false}, {0xe0030003, 0x40000000, 1, 3, false},
    {0xffff000f, 0x00010000, 3, 3, true},  {0xffffffff, 0x00020000, 2, 1, false},
    {0xffff0003, 0x00030000, 0, 2, false}, {0xe0000003, 0x20000000, 0, 1, false},
    {0x00000003, 0x00000001, 2, 1, false}, {0x00000003, 0x00000002, 2, 1, false},
};

/* W20, W21, W22, W23, W24: why a word is reserved at a row's setting, by these; 0 where it isn't. */
static uint32_t why_second(const struct record *row, uint32_t word)
{
    for (size_t i = 0; i < sizeof forms / sizeof forms[0]; i++) {
        if ((word & forms[i].mask) != forms[i].bits)
            continue;
        if (row->word[AT_LEVEL] < forms[i].level)
            return WHY_LEVEL;
        if ((forms[i].modes >> row->word[AT_MODE] & 1) == 0)
            return WHY_MODE;
        return forms[i].needs_sli && row->word[AT_SLI] == 0 ? WHY_SLI : WHY_NONE;
    }
    return WHY_FORM;
}

/* A word of one of the forms, half of the time with one bit turned over, or any word. */
static uint32_t draw_form_word(struct draw *draw)
{
    uint32_t form = draw_below(draw, sizeof forms / sizeof forms[0]);
    uint32_t word = (draw_number(draw) & ~forms[form].mask) | forms[form].bits;
    uint32_t bit = UINT32_C(1) << draw_below(draw, 32);

    if (draw_once_in(draw, 4))
        return draw_word(draw);
    return draw_once_in(draw, 2) ? word ^ bit : word;
}

/* S23, S28, S33: a command at any setting, by the second reading: reserved words stop with their why, and no
 * other word leaves one. */
static void test_second_reserved(struct draw *draw)
{
    struct setting setting = draw_setting(draw);
    struct channel channel = reading(setting.level, setting.mode, setting.sli);
    struct record row = record_of(&channel);
    uint32_t why;

    scene.words[0] = draw_form_word(draw);
    channel.not_main = draw_once_in(draw, 2);
    channel.subroutine = draw_once_in(draw, 2);
    why = why_second(&row, scene.words[0]);
    if (why != WHY_NONE) {
        steps("a reserved word", channel, plain(KIND_ERROR), reserved_stopped(advanced(channel), why));
        return;
    }
    model_step(&channel, &scene.lent);
    check(channel.pusher_error != PUSHER_RESERVED_CMD && channel.pusher_why == WHY_NONE,
          "a word that is a command", setting.level, setting.mode);
}

/* ---- Methods ---- */

/* W18: the methods that levels 0 to 5 have, as a row of bits, method 0 lowest. */
static const uint64_t present[] = {0x1, 0x100001, 0xf100001, 0x10f100001, 0x10f100001, 0x10f1003f1};

/* S24, S28: methods that the level has, and those that it lacks; with a parameter that each of them takes. */
static void test_present(uint32_t level)
{
    for (uint32_t number = 0; number < 0x100; number += 4) {
        uint32_t parameter = number == 0x10 || number == 0x1c ? 2 : 0x100;
        struct channel channel = taking(level, number, parameter);
        struct answer answer;

        channel.dma_semaphore = 1;
        channel.offset_valid = true;
        channel.semaphore_address = 0;
        if (present[level] >> number / 4 & 1) {
            answer = model_step(&channel, &scene.lent);
            check(answer.kind != KIND_ERROR && answer.method == number && channel.count == 1,
                  "a method that the level has", level, 0);
            continue;
        }
        steps("NON_CACHE leaves count and method", channel, plain(KIND_ERROR),
              pusher_stopped(advanced(channel), PUSHER_NON_CACHE));
    }
}

/* S24, S25, P22: what is discarded, with the parameter as it was read. NON_CACHE comes before that. */
static void test_discard(uint32_t level, uint32_t mode)
{
    static const uint32_t numbers[] = {0x00, 0x50, 0x60, 0x64, 0x68, 0x6c, 0x80, 0x100, 0x180, 0x1ffc};
    struct channel channel;

    for (unsigned i = 0; i < sizeof numbers / sizeof numbers[0]; i++) {
        channel = reading(level, mode, true);
        channel.sli_active = false;
        channel.count = 0xffffff;
        channel.subchannel = 5;
        channel.method = numbers[i] / 4;
        scene.words[0] = 0xdeadbeef;
        steps("the method is discarded", channel, method(KIND_DISCARD, 5, numbers[i], 0xdeadbeef),
              submitted(channel));
    }
    channel.method = 0x54 / 4;
    steps("NON_CACHE comes before a discard", channel, plain(KIND_ERROR),
          pusher_stopped(advanced(channel), PUSHER_NON_CACHE));
    for (uint32_t number = 0x10; number <= 0x24; number += 4) {
        channel.method = number / 4;
        scene.words[0] = number == 0x1c ? 2 : 0xdeadbeef;
        if (level >= 5)
            steps("a long semaphore is discarded", channel, method(KIND_DISCARD, 5, number, scene.words[0]),
                  submitted(channel));
        else
            steps("long semaphores below level 5", channel, plain(KIND_ERROR),
                  pusher_stopped(advanced(channel), PUSHER_NON_CACHE));
    }
}

/* S24, S25, P21: an increasing method, also where the puller fails or SLI discards. */
static void test_increasing(void)
{
    struct channel channel = taking(3, 0x50, 7);
    struct channel after;

    channel.increasing = true;
    after = submitted(channel);
    after.ref = 7;
    check(after.method == 0x54 / 4, "by one", 3, 0);
    steps("an increasing method goes to the next", channel, method(KIND_REF, 3, 0x50, 7), after);
    channel.method = 0x1ffc / 4;
    after = submitted(channel);
    after.method = 0;
    after.last_engine = 19;
    steps("method 0 comes after the last", channel, method(KIND_FORWARD, 3, 0x1ffc, 7), after);
    channel.engines[3] = after.engines[3] = 0;
    after.last_engine = 17;
    steps("count and method where the puller fails", channel, plain(KIND_ERROR),
          puller_stopped(after, PULLER_EMPTY_SUBCHANNEL));
    channel.sli_active = after.sli_active = false;
    steps("with SLI off sli_active has no effect", channel, plain(KIND_ERROR),
          puller_stopped(after, PULLER_EMPTY_SUBCHANNEL));
    channel.setup.setting.sli = after.setup.setting.sli = true;
    steps("a discarded method rises too", channel, method(KIND_DISCARD, 3, 0x1ffc, 7), after);
}

/* S25, P4: a run of two from 0x1ffc, which binds. */
static void test_wrap(void)
{
    struct channel channel = taking(0, 0x1ffc, 7);
    struct channel after;

    channel.increasing = true;
    scene.words[1] = 0x100;
    check(model_step(&channel, &scene.lent).kind == KIND_FORWARD, "0x1ffc", 0, 0);
    after = channel;
    after.get = 8;
    after.count = 0;
    after.method = 1;
    after.engines[3] = after.last_engine = 5;
    steps("the second parameter binds", channel, method(KIND_BIND, 3, 0, 0xa0), after);
}

/* ---- IB entries ---- */

/* A channel that is about to read entry 0 of four. */
static struct channel fetching(uint64_t entry)
{
    struct channel channel = at(4, MODE_IB, false);

    channel.get = channel.put = 0x40;
    channel.ib_put = 3;
    channel.dma_mget = 0x77;
    scene.entries[0] = entry;
    return channel;
}

/* E1, E3, E5, E6, E7: entries by their bits. */
static void test_entries(void)
{
    struct channel channel = fetching(UINT64_C(0x00000e0000001000));
    struct channel after = channel;

    after.ib_get = 1;
    after.get = 0x1000;
    after.put = 0x100c;
    after.not_main = true;
    steps("the entry to try", channel, plain(KIND_ENTRY), after);
    scene.entries[0] |= UINT64_C(0x10000000003);
    steps("bits 0, 1 and 40 change nothing", channel, plain(KIND_ENTRY), after);

    scene.entries[0] = UINT64_C(0xfffffcfffffffffc);
    channel.not_main = true;
    after.not_main = false;
    after.get = after.dma_mget = UINT64_C(0xfffffffffc);
    after.put = UINT64_C(0xfffff8);
    steps("a put past 40 bits, and dma_mget", channel, plain(KIND_ENTRY), after);
    channel.dma_mget_valid = after.dma_mget_valid = true;
    steps("the valid flag is left alone", channel, plain(KIND_ENTRY), after);
}

/* E2, E3, E4, S27, S28: the last entry of the ring, one that isn't lent, and one without words. */
static void test_entry_indices(void)
{
    struct channel channel = fetching(0);
    struct channel after = channel;

    scene.entries[3] = UINT64_C(0x400) << 32 | 8;
    channel.ib_get = 3;
    channel.ib_put = after.ib_put = 1;
    after.get = after.dma_mget = 8;
    after.put = 12;
    steps("the ring's last entry", channel, plain(KIND_ENTRY), after);
    scene.lent.entry_count = 3;
    steps("PROTECTION one entry past the lent ones", channel, plain(KIND_ERROR),
          pusher_stopped(channel, PUSHER_PROTECTION));
    channel.ib_get = 2;
    after = channel;
    after.ib_get = 3;
    scene.entries[2] = UINT64_C(0x300) << 32 | 0xffffffff;
    steps("an entry without words", channel, plain(KIND_ERROR), pusher_stopped(after, PUSHER_IB));
}

/* S10, S28, E5, E6: an entry that points beyond the lent words is read all the same, and only its first word
 * is not. The read address stays at the entry's. */
static void test_entries_beyond(void)
{
    for (unsigned i = 0; i < 2 * LIMITS * FAR_WORDS; i++) {
        uint64_t address = far_words[i / 2 / LIMITS];
        uint64_t not_main = i % 2;
        struct channel channel = fetching(UINT64_C(2) << 42 | not_main << 41 | address);
        struct channel after;

        channel.setup.dma_limit = limits[i / 2 % LIMITS];
        after = channel;
        after.ib_get = 1;
        after.get = address;
        after.put = address == UINT64_C(0xfffffffffc) ? 4 : address + 8;
        after.not_main = not_main != 0;
        after.dma_mget = after.not_main ? 0x77 : address;
        steps("an entry beyond the lent words", channel, plain(KIND_ENTRY), after);
        steps("PROTECTION at the entry's address", after, plain(KIND_ERROR),
              pusher_stopped(after, PUSHER_PROTECTION));
    }
}

/* S10, E5: an entry over the last two lent words and one more, which is where it stops. */
static void test_entry_overrun(void)
{
    static const uint32_t kinds[] = {KIND_ENTRY, KIND_COMMAND, KIND_COMMAND, KIND_ERROR, KIND_STOPPED};

    for (unsigned i = 0; i < LIMITS; i++) {
        struct channel channel = fetching(UINT64_C(3) << 42 | 24);

        channel.setup.dma_limit = limits[i];
        for (unsigned j = 0; j < sizeof kinds / sizeof kinds[0]; j++)
            check(model_step(&channel, &scene.lent).kind == kinds[j], "an entry past the lent words' end", 4,
                  MODE_IB);
        check(channel.pusher_error == PUSHER_PROTECTION, "stops at that end", 4, MODE_IB);
        check(channel.get == 32 && channel.dma_mget == 32 && channel.put == 36, "with one word to go", 4,
              MODE_IB);
    }
}

/* S12: dma_mget and its valid flag, in either mode. */
static void test_mget(void)
{
    struct channel channel = reading(4, MODE_IB, false);
    struct channel after = channel;

    channel.dma_mget = after.dma_mget = 0x77;
    after.get = after.dma_mget = 4;
    after.dma_mget_valid = true;
    steps("dma_mget goes with the advance", channel, plain(KIND_COMMAND), after);
    channel.not_main = after.not_main = true;
    after.dma_mget = 0x77;
    after.dma_mget_valid = false;
    steps("not where NOT_MAIN is set", channel, plain(KIND_COMMAND), after);

    channel = reading(4, MODE_NV04, false);
    channel.dma_mget = 0x77;
    after = channel;
    after.get = 4;
    steps("not in NV04-style", channel, plain(KIND_COMMAND), after);
}

/* S7, S14: a long form whose count word and parameters come by other entries. */
static void test_entry_ends(void)
{
    static const uint32_t kinds[] = {KIND_ENTRY, KIND_COMMAND, KIND_ENTRY, KIND_COUNT,
                                     KIND_ENTRY, KIND_REF,     KIND_REF,   KIND_IDLE};
    struct channel channel = at(4, MODE_IB, false);

    scene.words[0] = 0x00030050;
    scene.words[1] = 2;
    scene.words[2] = 33;
    scene.words[3] = 34;
    scene.entries[0] = UINT64_C(0x400) << 32;
    scene.entries[1] = UINT64_C(0x400) << 32 | 4;
    scene.entries[2] = UINT64_C(0x800) << 32 | 8;
    check(model_set_put(&channel, 3) == REFUSAL_NONE, "three entries", 4, MODE_IB);
    for (unsigned i = 0; i < sizeof kinds / sizeof kinds[0]; i++)
        check(model_step(&channel, &scene.lent).kind == kinds[i], "a command goes on over an entry's end", 4,
              MODE_IB);
    check(channel.ref == 34, "the last parameter", 4, MODE_IB);
}

/* ---- The puller ---- */

/* P3, P22: one parameter of a method is taken; `after` is the channel with what the puller changes, as yet
 * without the pusher's part. */
static void pulls(const char *sentence, struct channel before, uint32_t kind, uint32_t parameter,
                  struct channel after)
{
    steps(sentence, before, method(kind, before.subchannel, 4 * before.method, parameter), submitted(after));
}

/* P20, P21: a parameter stops the puller. Nothing comes of it but the stop and the pusher's part. */
static void fails(const char *sentence, struct channel before, uint32_t error)
{
    steps(sentence, before, plain(KIND_ERROR), puller_stopped(submitted(before), error));
}

/* P1, P2, P4, P5: objects to bind, and handles without one. */
static void test_bind(uint32_t level)
{
    struct channel channel = taking(level, 0x00, 0x100);
    struct channel after = channel;

    after.engines[3] = after.last_engine = 5;
    pulls("of two entries the lower one is bound", channel, KIND_BIND, 0xa0, after);
    scene.words[0] = 0x600;
    after.engines[3] = after.last_engine = 8;
    pulls("an engine with bits above it", channel, KIND_BIND, 0xa5, after);
    scene.words[0] = 0x200;
    after = channel;
    after.engines[3] = 0;
    steps("engine 0 is bound before the error", channel, plain(KIND_ERROR),
          puller_stopped(submitted(after), PULLER_EMPTY_SUBCHANNEL));
    scene.words[0] = 0xa0;
    fails("a handle that no entry has", channel, PULLER_NO_HASH);
    scene.words[0] = 0x700;
    scene.lent.table_count = 24;
    fails("an entry that isn't lent", channel, PULLER_NO_HASH);
    scene.lent.table_count = 0;
    fails("an empty table", channel, PULLER_NO_HASH);
}

/* P18, P19: methods for the engine, around those that are looked up. */
static void test_forward(uint32_t level)
{
    static const uint32_t numbers[] = {0x100, 0x17c, 0x180, 0x1fc, 0x200, 0x1ffc};

    for (unsigned i = 0; i < sizeof numbers / sizeof numbers[0]; i++) {
        bool looks = numbers[i] >= 0x180 && numbers[i] <= 0x1fc;
        struct channel channel = taking(level, numbers[i], 0x300);
        struct channel after = channel;

        after.last_engine = 19;
        pulls("a method for the engine", channel, KIND_FORWARD, looks ? 0xa2 : 0x300, after);
        channel.engines[3] = 0;
        fails("nothing is bound", channel, PULLER_EMPTY_SUBCHANNEL);
        scene.words[0] = 0x301;
        fails("the lookup comes first", channel, looks ? PULLER_NO_HASH : PULLER_EMPTY_SUBCHANNEL);
    }
}

/* P6, P7, P8: the reference counter, and methods without effect. */
static void test_ref_and_events(uint32_t level)
{
    struct channel channel = taking(level, 0x50, 0xfffffffe);
    struct channel after = channel;

    after.ref = 0xfffffffe;
    if (level >= 1)
        pulls("the reference counter", channel, KIND_REF, 0xfffffffe, after);
    channel.method = 0x80 / 4;
    if (level >= 3)
        pulls("0x80 has no effect", channel, KIND_EVENT, 0xfffffffe, channel);
    for (uint32_t number = 0x20; level >= 5 && number <= 0x24; number += 4) {
        channel.method = number / 4;
        pulls("0x20 and 0x24 have no effect", channel, KIND_EVENT, 0xfffffffe, channel);
    }
}

/* P1, P2, P9, P10: objects for semaphores, of which three are good from level 4 on alone. */
static void test_dma(uint32_t level)
{
    static const uint32_t handles[] = {0x300, 0x400, 0x500, 0x100, 0x600, 0x700};
    static const uint32_t addresses[] = {0xa2, 0xa3, 0xa4, 0xa0, 0xa5, 0};

    for (unsigned i = 0; i < sizeof handles / sizeof handles[0]; i++) {
        struct channel channel = taking(level, 0x60, handles[i]);
        struct channel after = channel;

        channel.dma_semaphore = 0xee;
        after.dma_semaphore = addresses[i];
        if (level < 4 && i < 3)
            fails("an object that is no good below level 4", channel, PULLER_SEMAPHORE_1);
        else
            pulls("an object for semaphores", channel, KIND_DMA, addresses[i], after);
        scene.words[0] = 0x30002;
        fails("no object for semaphores", channel, PULLER_NO_HASH);
    }
}

/* P11, P12: offsets by their bits. */
static void test_offset(uint32_t level)
{
    static const struct {
        uint32_t offset;
        uint32_t before_nv50;
        uint32_t from_nv50;
    } rows[] = {
        {0, 0, 0},
        {0xffc, 0, 0},
        {0x001, PULLER_SEMAPHORE_1, PULLER_SEMAPHORE_1},
        {0x002, PULLER_SEMAPHORE_1, PULLER_SEMAPHORE_1},
        {0x1000, PULLER_SEMAPHORE_1, 0},
        {0xfffc, PULLER_SEMAPHORE_1, 0},
        {0xffff, PULLER_SEMAPHORE_1, PULLER_SEMAPHORE_1},
        {0x10000, PULLER_SEMAPHORE_1, PULLER_SEMAPHORE_3},
        {0x10001, PULLER_SEMAPHORE_1, PULLER_SEMAPHORE_1},
        {0x80000000, PULLER_SEMAPHORE_1, PULLER_SEMAPHORE_3},
        {0xffffffff, PULLER_SEMAPHORE_1, PULLER_SEMAPHORE_1},
    };

    for (unsigned i = 0; i < sizeof rows / sizeof rows[0]; i++) {
        uint32_t error = level < 4 ? rows[i].before_nv50 : rows[i].from_nv50;
        struct channel channel = taking(level, 0x64, rows[i].offset);
        struct channel after = channel;

        channel.semaphore_offset = 0x44;
        after.semaphore_offset = rows[i].offset;
        after.offset_valid = level >= 4;
        if (error != 0)
            fails("an offset with a wrong bit", channel, error);
        else
            pulls("an offset without one", channel, KIND_OFFSET, rows[i].offset, after);
    }
}

/* P13, P14: a channel about to acquire or release the value 11 at semaphore word 1, which has what its level
 * asks for and not what others do. The offset isn't that of the word's first byte. */
static struct channel semaphoring(uint32_t level, uint32_t number)
{
    struct channel channel = taking(level, number, 11);

    channel.semaphore_offset = 7;
    channel.dma_semaphore = level < 4 ? 1 : 0;
    channel.offset_valid = level >= 4;
    return channel;
}

/* P13, P14: words that aren't lent, and a semaphore that isn't set, which is told first. */
static void test_semaphore_errors(uint32_t level, uint32_t number)
{
    uint32_t past = level < 4 ? PULLER_SEMAPHORE_2 : PULLER_SEMAPHORE_4;
    struct channel channel = semaphoring(level, number);

    scene.lent.semaphore_count = 1;
    fails("one semaphore word past the lent ones", channel, past);
    channel.semaphore_offset = UINT32_MAX;
    fails("a semaphore word far past the lent ones", channel, past);
    channel.dma_semaphore = level < 4 ? 0 : 1;
    channel.offset_valid = level < 4;
    fails("a semaphore that isn't set", channel, PULLER_SEMAPHORE_2);
}

/* P14, P15: an acquire that finds its value at the last lent word, and those that wait. */
static void test_acquire(uint32_t level)
{
    struct channel channel = semaphoring(level, 0x68);
    struct channel after = channel;

    scene.lent.semaphore_count = 2;
    pulls("an acquire that finds its value", channel, KIND_ACQUIRE, 11, channel);
    for (uint32_t value = 10; value <= 12; value += 2) {
        scene.words[0] = value;
        after.acquire_active = true;
        after.acquire_value = value;
        after.acquire_mode = ACQUIRE_OLD;
        pulls("an acquire that waits", channel, KIND_WAIT, value, after);
    }
    test_semaphore_errors(level, 0x68);
}

/* P14, P17: a release of the last lent word. */
static void test_release(uint32_t level)
{
    struct channel channel = semaphoring(level, 0x6c);

    scene.lent.semaphore_count = 2;
    scene.words[0] = 0xfeedf00d;
    scene.expected[1] = 0xfeedf00d;
    pulls("a release", channel, KIND_RELEASE, 0xfeedf00d, channel);
    test_semaphore_errors(level, 0x6c);
}

/* S5, P16, P21: an old retry at any level, with no object and no valid offset. */
static void test_retry(uint32_t level)
{
    struct channel channel = taking(level, 0x50, 7);
    struct channel after;

    channel.acquire_active = true;
    channel.acquire_value = 11;
    channel.acquire_mode = ACQUIRE_OLD;
    channel.semaphore_offset = 7;
    after = channel;
    after.acquire_active = false;
    scene.lent.semaphore_count = 2;
    steps("a retry that finds its value", channel, plain(KIND_ACQUIRE), after);
    for (uint32_t value = 10; value <= 12; value += 2) {
        channel.acquire_value = value;
        steps("a retry that waits", channel, plain(KIND_WAIT), channel);
    }
    scene.lent.semaphore_count = 1;
    steps("a retry past the lent words, still active", channel, plain(KIND_ERROR),
          puller_stopped(channel, level < 4 ? PULLER_SEMAPHORE_2 : PULLER_SEMAPHORE_4));
}

/* ---- Long semaphores ---- */

/* P25: the high half, which keeps the low one. */
static void test_address_high(void)
{
    static const uint32_t good[] = {0, 1, 0x7f, 0x80, 0xff};
    static const uint32_t bad[] = {0x100, 0x101, 0x1ff, 0x10000, 0x80000000, 0xffffff00, UINT32_MAX};

    for (unsigned i = 0; i < sizeof good / sizeof good[0]; i++) {
        struct channel channel = taking(5, 0x10, good[i]);
        struct channel after = channel;

        after.semaphore_address = UINT64_C(0x100000000) * good[i] + 0x87654321;
        pulls("a high half of eight bits", channel, KIND_EVENT, good[i], after);
    }
    for (unsigned i = 0; i < sizeof bad / sizeof bad[0]; i++)
        fails("a high half of more bits", taking(5, 0x10, bad[i]), PULLER_SEMAPHORE_3);
}

/* P26: the low half, which keeps the high one. */
static void test_address_low(void)
{
    static const uint32_t good[] = {0, 4, 8, 0x100, 0x7ffffffc, 0x80000000, 0xfffffffc};

    for (unsigned i = 0; i < sizeof good / sizeof good[0]; i++) {
        struct channel channel = taking(5, 0x14, good[i]);
        struct channel after = channel;

        after.semaphore_address = UINT64_C(0xa900000000) + good[i];
        pulls("a low half at a word", channel, KIND_EVENT, good[i], after);
        for (uint32_t byte = 1; byte < 4; byte++)
            fails("a low half between words", taking(5, 0x14, good[i] + byte), PULLER_SEMAPHORE_1);
    }
}

/* P27: any sequence. */
static void test_sequence(void)
{
    static const uint32_t sequences[] = {0, 1, 2, 3, 0x7fffffff, 0x80000000, UINT32_MAX};

    for (unsigned i = 0; i < sizeof sequences / sizeof sequences[0]; i++) {
        struct channel channel = taking(5, 0x18, sequences[i]);
        struct channel after = channel;

        after.semaphore_sequence = sequences[i];
        pulls("a sequence", channel, KIND_EVENT, sequences[i], after);
    }
}

/* P13, P28: a channel about to trigger at a byte of a semaphore word, with nothing that an old semaphore
 * would ask for. */
static struct channel triggering(uint32_t operation, uint64_t address, uint32_t sequence)
{
    struct channel channel = taking(5, 0x1c, operation);

    channel.semaphore_address = address;
    channel.semaphore_sequence = sequence;
    channel.semaphore_offset = UINT32_MAX;
    return channel;
}

/* P28: numbers that are no operation, by the whole parameter, on a memory of every length. */
static void test_operations(void)
{
    static const uint32_t others[] = {0x11,   0x12,    0x14,       0x81,       0x102,      0x1002,
                                      0x2004, 0x10001, 0x80000001, 0x80000002, 0x80000004, UINT32_MAX};

    for (unsigned i = 0; i < 9 * (16 + sizeof others / sizeof others[0]); i++) {
        uint32_t operation = i / 9 < 16 ? i / 9 : others[i / 9 - 16];
        struct channel channel = triggering(operation, 4, 11);

        if (operation == 1 || operation == 2 || operation == 4)
            continue;
        scene.lent.semaphore_count = i % 9;
        fails("a number that is no operation", channel, PULLER_SEMAPHORE_2);
        channel.semaphore_address = UINT64_C(0xffffffffff);
        fails("a number that is no operation, at any address", channel, PULLER_SEMAPHORE_2);
    }
}

/* P29: a release at every byte of nine words, of which none to eight are lent. Four words are written, and
 * the others stay; or none is. */
static void test_long_release(void)
{
    for (unsigned i = 0; i < 9 * 4 * 9; i++) {
        uint32_t place = i / 4 % 9;
        struct channel channel = triggering(2, i % 36, 0xfeedf00d);

        scene.lent.semaphore_count = i / 36;
        scene.lent.clock = UINT64_C(0x123456789abcdef0);
        if (place + 4 > i / 36) {
            fails("a release of words that aren't all lent", channel, PULLER_SEMAPHORE_4);
            continue;
        }
        scene.expected[place] = 0xfeedf00d;
        scene.expected[place + 1] = 0;
        scene.expected[place + 2] = 0x9abcdef0;
        scene.expected[place + 3] = 0x12345678;
        pulls("a release of four words", channel, KIND_RELEASE, 2, channel);
    }
}

/* P29, P30, P31: addresses behind the lent words, all but one past any memory. Many would be at a word, or
 * end at one, if they or their places were cut to 32 bits. */
static const uint64_t far_addresses[] = {0x20,         0x400000,     0x80000000,   0xfffffffc,  0x100000000,
                                         0x100000003,  0x3fffffff0,  0x3fffffffc,  0x400000000, 0xff00000000,
                                         0x8000000004, 0xfffffffff0, 0xfffffffffc, 0xffffffffff};

/* P29, P30: the same addresses for each operation, though every word would do. */
static void test_far_triggers(void)
{
    for (unsigned i = 0; i < 3 * sizeof far_addresses / sizeof far_addresses[0]; i++) {
        struct channel channel = triggering(UINT32_C(1) << i % 3, far_addresses[i / 3], 5);

        for (unsigned j = 0; j < SEMAPHORES; j++)
            scene.semaphores[j] = scene.expected[j] = 5;
        fails("a long semaphore past the lent words", channel, PULLER_SEMAPHORE_4);
    }
}

/* P30: differences of a word and a value, and whether each mode passes. */
static const struct {
    uint32_t difference;
    bool equal;
    bool greater;
} differences[] = {
    {0, true, true},
    {1, false, true},
    {2, false, true},
    {0x7ffffffe, false, true},
    {0x7fffffff, false, true},
    {0x80000000, false, false},
    {0x80000001, false, false},
    {0xfffffffe, false, false},
    {0xffffffff, false, false},
};

enum { DIFFERENCES = sizeof differences / sizeof differences[0], VALUES = 6 };

/* P30: values around both places where a number of 32 bits ends, with a sign and without. */
static const uint32_t values[VALUES] = {0, 1, 0x7fffffff, 0x80000000, 0xfffffffe, 0xffffffff};

/* P30: acquires in both modes at any byte of the last lent word. Only one that waits is stored. */
static void test_long_acquire(void)
{
    for (unsigned i = 0; i < 2 * 4 * DIFFERENCES * VALUES; i++) {
        bool is_equal = i % 2 == 0;
        unsigned row = i / 8 % DIFFERENCES;
        uint32_t sequence = values[i / 8 / DIFFERENCES];
        struct channel channel = triggering(is_equal ? 1 : 4, 20 + i / 2 % 4, sequence);
        struct channel after = channel;

        scene.semaphores[5] = scene.expected[5] = sequence + differences[row].difference;
        scene.lent.semaphore_count = 6;
        after.acquire_active = true;
        after.acquire_value = sequence;
        after.acquire_mode = is_equal ? ACQUIRE_EQUAL : ACQUIRE_GREATER;
        if (is_equal ? differences[row].equal : differences[row].greater)
            pulls("a long acquire that passes", channel, KIND_ACQUIRE, is_equal ? 1 : 4, channel);
        else
            pulls("a long acquire that waits", channel, KIND_WAIT, is_equal ? 1 : 4, after);
        scene.lent.semaphore_count = 5;
        fails("a long acquire one word past the lent ones", channel, PULLER_SEMAPHORE_4);
    }
}

/* S5, P31: a channel that tries a long acquire again at byte 22. By its offset or sequence it would pass. */
static struct channel retrying(uint32_t level, uint32_t mode, uint32_t value, uint32_t word)
{
    struct channel channel = taking(level, 0x50, 7);

    channel.acquire_active = true;
    channel.acquire_mode = mode;
    channel.acquire_value = value;
    channel.semaphore_address = 22;
    channel.semaphore_sequence = word;
    channel.semaphore_offset = 4;
    scene.semaphores[5] = scene.expected[5] = word;
    scene.semaphores[1] = scene.expected[1] = value;
    scene.lent.semaphore_count = 6;
    return channel;
}

/* R35, S5, P21, P31: retries in both long modes at any level, against the value and not the sequence. */
static void test_long_retry(uint32_t level)
{
    for (unsigned i = 0; i < 2 * DIFFERENCES * VALUES; i++) {
        bool is_equal = i % 2 == 0;
        unsigned row = i / 2 % DIFFERENCES;
        uint32_t value = values[i / 2 / DIFFERENCES];
        struct channel channel = retrying(level, is_equal ? ACQUIRE_EQUAL : ACQUIRE_GREATER, value,
                                          value + differences[row].difference);
        struct channel after;

        if (is_equal ? differences[row].equal : differences[row].greater) {
            channel.semaphore_sequence++;
            after = channel;
            after.acquire_active = false;
            scene.semaphores[1] = scene.expected[1] = value - 1;
            steps("a long retry that passes", channel, plain(KIND_ACQUIRE), after);
        } else {
            steps("a long retry that waits", channel, plain(KIND_WAIT), channel);
        }
        scene.lent.semaphore_count = 5;
        steps("a long retry past the lent words, still active", channel, plain(KIND_ERROR),
              puller_stopped(channel, PULLER_SEMAPHORE_4));
    }
    for (unsigned i = 0; i < 2 * sizeof far_addresses / sizeof far_addresses[0]; i++) {
        struct channel channel = retrying(level, i % 2 == 0 ? ACQUIRE_EQUAL : ACQUIRE_GREATER, 10, 10);

        channel.semaphore_address = far_addresses[i / 2];
        steps("a long retry far past the lent words", channel, plain(KIND_ERROR),
              puller_stopped(channel, PULLER_SEMAPHORE_4));
    }
}

/* P15, P16: an old acquire that waits is an old one from then on, whatever the mode was; then its word is
 * that of the offset, and not the long semaphore's. */
static void test_old_mode(uint32_t level)
{
    for (uint32_t mode = 0; mode < ACQUIRE_MODES; mode++) {
        struct channel channel = semaphoring(level, 0x68);
        struct channel after;

        channel.acquire_mode = mode;
        channel.semaphore_address = 20;
        scene.words[0] = 15;
        check(model_step(&channel, &scene.lent).kind == KIND_WAIT, "an old acquire", level, 0);
        check(channel.acquire_mode == ACQUIRE_OLD, "is kept as an old one", level, 0);
        steps("and tried again as one", channel, plain(KIND_WAIT), channel);
        scene.semaphores[1] = scene.expected[1] = 15;
        after = channel;
        after.acquire_active = false;
        steps("till its own word has the value", channel, plain(KIND_ACQUIRE), after);
    }
}

/* P25, P26, P27, P28, P29: a fresh channel, which has neither object nor offset, over a run from 0x10 on. */
static void test_fresh_release(void)
{
    struct channel channel = reading(5, MODE_NV04, false);

    scene.words[0] = 0x0004001c;
    scene.words[1] = 2;
    channel.put = 8;
    check(model_step(&channel, &scene.lent).kind == KIND_COMMAND, "a trigger and no more", 5, 0);
    check(model_step(&channel, &scene.lent).kind == KIND_RELEASE, "releases at word 0", 5, 0);
    check(scene.semaphores[0] == 0 && scene.semaphores[1] == 0, "the sequence of a fresh channel", 5, 0);
    check(scene.semaphores[2] == 0xb && scene.semaphores[3] == 0xa, "and the clock, low half first", 5, 0);
    check(scene.semaphores[4] == 14, "and no further word", 5, 0);

    channel = reading(5, MODE_NV04, false);
    scene.words[0] = 0x00180010;
    scene.words[1] = 0xff;
    scene.words[2] = 0xfffffffc;
    scene.words[3] = 6;
    scene.words[4] = 4;
    for (unsigned i = 0; i < 5; i++)
        check(model_step(&channel, &scene.lent).refusal == REFUSAL_NONE, "a run of six", 5, 0);
    check(channel.semaphore_address == UINT64_C(0xfffffffffc), "the largest address at a word", 5, 0);
    check(channel.semaphore_sequence == 6 && channel.puller_error == PULLER_SEMAPHORE_4, "is past the end", 5,
          0);
}

/* P29, P30: the trigger that the rules work through. */
static void test_worked_trigger(void)
{
    struct channel channel = triggering(2, 0x10, 7);
    struct channel after = channel;

    memset(scene.semaphores, 0, sizeof scene.semaphores);
    memset(scene.expected, 0, sizeof scene.expected);
    scene.lent.clock = UINT64_C(0x0000000a0000000b);
    scene.lent.semaphore_count = 7;
    fails("a release with seven words", channel, PULLER_SEMAPHORE_4);
    scene.lent.semaphore_count = 8;
    after.acquire_active = true;
    after.acquire_value = 7;
    after.acquire_mode = ACQUIRE_EQUAL;
    scene.words[0] = 1;
    pulls("0 is not 7", channel, KIND_WAIT, 1, after);
    after.acquire_mode = ACQUIRE_GREATER;
    scene.words[0] = 4;
    pulls("nor greater", channel, KIND_WAIT, 4, after);
    scene.semaphores[4] = scene.expected[4] = 8;
    pulls("8 is greater", channel, KIND_ACQUIRE, 4, channel);
    after.acquire_mode = ACQUIRE_EQUAL;
    scene.words[0] = 1;
    pulls("and not equal", channel, KIND_WAIT, 1, after);
    scene.words[0] = 2;
    scene.expected[4] = 7;
    scene.expected[6] = 0xb;
    scene.expected[7] = 0xa;
    pulls("a release with eight", channel, KIND_RELEASE, 2, channel);
}

/* R13, R32, R35: an address of 40 bits, at a word or not, and one of more, of a step and of a put. */
static void test_address_width(uint32_t level, uint32_t mode)
{
    struct channel channel = at(level, mode, false);

    for (uint32_t byte = 0; byte < 4; byte++) {
        channel.semaphore_address = UINT64_C(0xfffffffffc) + byte;
        steps("an address of 40 bits", channel, plain(KIND_IDLE), channel);
        sets_put("an address of 40 bits", channel, 0, REFUSAL_NONE, channel);
    }
    for (uint32_t bit = 40; bit < 64; bit++) {
        channel.semaphore_address = UINT64_C(1) << bit;
        steps("an address of more bits", channel, refused(REFUSAL_STATE), channel);
        sets_put("an address of more bits", channel, 0, REFUSAL_STATE, channel);
    }
}

/* ---- Where a word is read, read a second time ---- */

/* S10: how many words there are to read; in NV04-style none behind the one that the limit lies in. */
static uint64_t readable_second(const struct record *row)
{
    uint64_t lent = scene.lent.word_count;
    uint64_t within = row->word[AT_DMA_LIMIT] / 4 + UINT64_C(1);

    return row->word[AT_MODE] == MODE_IB || lent < within ? lent : within;
}

/* S9, S10, S11, S12, S16: the row's address is looked for among those of these words, of which each has its
 * place plus one as its count; the answer is the event's kind. */
static uint32_t read_second(struct record *row)
{
    for (uint32_t place = 0; place < readable_second(row); place++) {
        if (row->word[AT_GET] != 4 * place || row->word[AT_GET_HIGH] != 0)
            continue;
        row->word[AT_GET] += 4;
        if (row->word[AT_MODE] == MODE_IB && row->word[AT_NOT_MAIN] == 0) {
            record_set(row, AT_DMA_MGET, row->word[AT_GET]);
            row->word[AT_DMA_MGET_VALID] = 1;
        }
        row->word[AT_COUNT] = place + 1;
        row->word[AT_INCREASING] = 1;
        return KIND_COMMAND;
    }
    row->word[AT_PUSHER_ERROR] = 6;
    return KIND_ERROR;
}

/* A limit on either side of an address, or wherever it may be. */
static uint32_t draw_limit(struct draw *draw, uint64_t address)
{
    uint32_t any = limits[draw_below(draw, LIMITS)];

    return draw_once_in(draw, 2) ? any : (uint32_t)address + 8 - draw_below(draw, 17);
}

/* S9, S10, S11, S12: a read address at or right behind the lent words, in one of four cases with a further
 * bit of those that the mode has, and any limit. */
static void test_second_read(struct draw *draw)
{
    struct setting setting = draw_setting(draw);
    bool is_ib = setting.mode == MODE_IB;
    struct channel channel = at(setting.level, setting.mode, setting.sli);
    struct record row;
    uint32_t kind;

    for (uint32_t i = 0; i < 8; i++)
        scene.words[i] = (i + 1) << 18;
    scene.lent.word_count = draw_below(draw, 9);
    channel.get = 4 * draw_below(draw, 10);
    if (draw_once_in(draw, 4))
        channel.get |= UINT64_C(4) << draw_below(draw, is_ib ? 38 : 30);
    channel.put = channel.get ^ 4;
    channel.setup.dma_limit = draw_limit(draw, channel.get);
    channel.not_main = draw_once_in(draw, 2);
    channel.dma_mget = is_ib ? UINT64_C(0xa900000077) : 0x77;
    row = record_of(&channel);
    kind = read_second(&row);
    steps("where a word is read", channel, plain(kind), channel_of(&row));
}

/* ---- Long semaphores, read a second time ---- */

/* P23: SEMAPHORE 1 to 4, by the number that each is stored as. */
static uint32_t fail_second(struct record *row, uint32_t subtype)
{
    row->word[AT_PULLER_ERROR] = 2 + subtype;
    return KIND_ERROR;
}

/* A number of some bytes, lowest first. */
static uint64_t number_at(const uint8_t *bytes, unsigned size)
{
    uint64_t number = 0;

    while (size-- > 0)
        number = 256 * number + bytes[size];
    return number;
}

static void set_number_at(uint8_t *bytes, uint64_t number, unsigned size)
{
    for (unsigned i = 0; i < size; i++) {
        bytes[i] = (uint8_t)(number % 256);
        number /= 256;
    }
}

/* The semaphore memory as bytes, so many of them lent. */
struct bytes {
    uint8_t byte[4 * SEMAPHORES];
    uint64_t length;
};

/* P29, P30: the byte at which the semaphore's word begins. */
static uint64_t start_of(const struct record *row)
{
    return record_get(row, AT_SEMAPHORE_ADDRESS) - row->word[AT_SEMAPHORE_ADDRESS] % 4;
}

/* P30: the difference is brought into the numbers that 32 bits with a sign can hold. */
static bool passes_second(bool is_equal, uint64_t word, uint64_t value)
{
    int64_t difference = (int64_t)word - (int64_t)value;

    if (difference > INT32_MAX)
        difference -= INT64_C(1) << 32;
    if (difference < INT32_MIN)
        difference += INT64_C(1) << 32;
    return is_equal ? difference == 0 : difference >= 0;
}

/* P29: sixteen bytes, of which the first four are the sequence and the last eight the clock. */
static uint32_t release_second(struct record *row, struct bytes *bytes, uint64_t clock)
{
    uint64_t start = start_of(row);

    if (start + 16 > bytes->length)
        return fail_second(row, 4);
    set_number_at(bytes->byte + start, row->word[AT_SEMAPHORE_SEQUENCE], 8);
    set_number_at(bytes->byte + start + 8, clock, 8);
    return KIND_RELEASE;
}

/* P30: modes 1 and 2 by the operation's bits 0 and 2. */
static uint32_t acquire_second(struct record *row, const struct bytes *bytes, uint32_t mode)
{
    uint64_t start = start_of(row);
    uint32_t sequence = row->word[AT_SEMAPHORE_SEQUENCE];

    if (start + 4 > bytes->length)
        return fail_second(row, 4);
    if (passes_second(mode == 1, number_at(bytes->byte + start, 4), sequence))
        return KIND_ACQUIRE;
    row->word[AT_ACQUIRE_ACTIVE] = 1;
    row->word[AT_ACQUIRE_MODE] = mode;
    row->word[AT_ACQUIRE_VALUE] = sequence;
    return KIND_WAIT;
}

/* P8, P25, P26, P27, P28: a method from 0x10 to 0x24, by its number; the answer is the event's kind. */
static uint32_t take_second(struct record *row, struct bytes *bytes, uint32_t parameter, uint64_t clock)
{
    uint32_t number = row->word[AT_METHOD];

    if (number == 4 && parameter / 256 != 0)
        return fail_second(row, 3);
    if (number == 5 && (parameter & 3) != 0)
        return fail_second(row, 1);
    if (number == 7 && parameter == 2)
        return release_second(row, bytes, clock);
    if (number == 7 && (parameter == 1 || parameter == 4))
        return acquire_second(row, bytes, parameter == 1 ? 1 : 2);
    if (number == 7)
        return fail_second(row, 2);
    if (number == 4)
        row->word[AT_SEMAPHORE_ADDRESS_HIGH] = parameter;
    if (number == 5)
        row->word[AT_SEMAPHORE_ADDRESS] = parameter;
    if (number == 6)
        row->word[AT_SEMAPHORE_SEQUENCE] = parameter;
    return KIND_EVENT;
}

/* S5, P16, P31: a retry, by the mode that the row has. */
static uint32_t retry_second(struct record *row, const struct bytes *bytes)
{
    uint32_t mode = row->word[AT_ACQUIRE_MODE];
    uint64_t start = mode == 0 ? row->word[AT_SEMAPHORE_OFFSET] / 4 * UINT64_C(4) : start_of(row);

    if (start + 4 > bytes->length)
        return fail_second(row, mode == 0 && row->word[AT_LEVEL] < 4 ? 2 : 4);
    if (!passes_second(mode < 2, number_at(bytes->byte + start, 4), row->word[AT_ACQUIRE_VALUE]))
        return KIND_WAIT;
    row->word[AT_ACQUIRE_ACTIVE] = 0;
    return KIND_ACQUIRE;
}

/* An address at or right behind the lent words, at any byte; now and then one that is far past them. */
static uint64_t draw_address(struct draw *draw)
{
    uint64_t address = draw_below(draw, 4 * SEMAPHORES + 4);

    if (draw_once_in(draw, 8))
        address |= UINT64_C(1) << draw_below(draw, 40);
    return address;
}

/* A number near one of the semaphore words, or half of all numbers away from there. */
static uint32_t draw_near(struct draw *draw)
{
    uint32_t word = scene.semaphores[draw_below(draw, SEMAPHORES)];
    uint32_t half = draw_once_in(draw, 2) ? 0 : UINT32_C(1) << 31;

    return word + half + 1 - draw_below(draw, 3);
}

/* The semaphore words, drawn and half of them the same, so many of them lent; and a clock. */
static struct bytes draw_scene(struct draw *draw)
{
    struct bytes bytes = {.length = 4 * draw_below(draw, SEMAPHORES + 1)};
    uint32_t word = draw_number(draw);
    uint64_t high = draw_number(draw);

    if (draw_once_in(draw, 2))
        word >>= 28;
    for (unsigned i = 0; i < SEMAPHORES; i++) {
        scene.semaphores[i] = draw_once_in(draw, 2) ? word : draw_number(draw);
        set_number_at(bytes.byte + 4 * i, scene.semaphores[i], 4);
    }
    scene.lent.semaphore_count = (size_t)bytes.length / 4;
    scene.lent.clock = high << 32 | draw_number(draw);
    return bytes;
}

/* The puller's part of a channel that acquires go by. */
static void draw_acquire(struct draw *draw, struct channel *channel)
{
    channel->semaphore_address = draw_address(draw);
    channel->semaphore_offset = (uint32_t)draw_address(draw);
    channel->semaphore_sequence = draw_near(draw);
    channel->acquire_value = draw_near(draw);
    channel->acquire_mode = draw_below(draw, ACQUIRE_MODES);
    channel->offset_valid = draw_once_in(draw, 2);
    channel->dma_semaphore = draw_below(draw, 2);
}

/* S29, P20, P22: the step as the second reading has it: the event, the row and the bytes that are left. */
static void steps_as_second(const char *sentence, struct channel channel, struct answer answer,
                            const struct record *row, const struct bytes *bytes)
{
    for (unsigned i = 0; i < SEMAPHORES; i++)
        scene.expected[i] = (uint32_t)number_at(bytes->byte + 4 * i, 4);
    if (answer.kind == KIND_ERROR)
        answer = plain(KIND_ERROR);
    steps(sentence, channel, answer, channel_of(row));
}

/* P25, P26, P27, P28, P29, P30: any of the methods with any parameter, of which many are of use. */
static void test_second_method(struct draw *draw)
{
    uint32_t number = 0x10 + 4 * draw_below(draw, 6);
    uint32_t parameter = draw_number(draw);
    struct channel channel = taking(5, draw_once_in(draw, 2) ? 0x1c : number, parameter);
    struct bytes bytes = draw_scene(draw);
    struct record row;
    uint32_t kind;

    scene.words[0] >>= draw_below(draw, 32);
    if (draw_once_in(draw, 2))
        scene.words[0] = UINT32_C(1) << draw_below(draw, 3);
    if (draw_once_in(draw, 8))
        scene.words[0] |= UINT32_C(1) << draw_below(draw, 32);
    draw_acquire(draw, &channel);
    row = record_of(&channel);
    kind = take_second(&row, &bytes, scene.words[0], scene.lent.clock);
    row.word[AT_GET] = 4;
    row.word[AT_COUNT]--;
    steps_as_second("a method of long semaphores", channel,
                    method(kind, 3, 4 * channel.method, scene.words[0]), &row, &bytes);
}

/* P16, P31: a retry in any mode at any level. */
static void test_second_retry(struct draw *draw)
{
    struct channel channel = taking(draw_below(draw, 6), 0x50, 7);
    struct bytes bytes = draw_scene(draw);
    struct record row;
    uint32_t kind;

    draw_acquire(draw, &channel);
    channel.acquire_active = true;
    row = record_of(&channel);
    kind = retry_second(&row, &bytes);
    steps_as_second("a retry", channel, plain(kind), &row, &bytes);
}

/* ---- The printed example ---- */

/* S30, T5: the kinds' names by their numbers. */
static const char *const kind_names[] = {"",      "command", "count",   "bind",    "ref",    "event",
                                         "dma",   "offset",  "acquire", "release", "wait",   "forward",
                                         "error", "entry",   "discard", "idle",    "stopped"};

_Static_assert(sizeof kind_names / sizeof kind_names[0] == KIND_LAST + 1, "every kind has a name");

/* T3, T4, T10: the line that the program prints for a step. */
static int print_step(char *out, size_t room, unsigned step, uint64_t get, struct answer answer)
{
    int length = snprintf(out, room, "step=%u get=%" PRIu64 " kind=%s", step, get, kind_names[answer.kind]);

    if (answer.fields)
        length += snprintf(out + length, room - (size_t)length, " subc=%u mthd=%u param=%u",
                           answer.subchannel, answer.method, answer.parameter);
    return length + snprintf(out + length, room - (size_t)length, "\n");
}

/* T3, T4, T7, S8: the printed example, step by step. */
static void test_printed(void)
{
    static const uint32_t words[] = {0x00040050, 0x00000007};
    static uint32_t semaphores[1024];
    static const char printed[] = "step=1 get=0 kind=command\n"
                                  "step=2 get=4 kind=ref subc=0 mthd=80 param=7\n"
                                  "end=idle steps=2 get=8 ref=7\n";
    struct setup setup = {{3, MODE_NV04, false}, 0, UINT32_MAX, 0};
    struct lent lent = {words, 2, NULL, 0, NULL, 0, semaphores, 1024, 0};
    struct channel channel;
    char text[256];
    int length = 0;

    model_open(&channel, setup, NULL, 0);
    check(model_set_put(&channel, 8) == REFUSAL_NONE, "put at the end", 3, 0);
    for (unsigned step = 1; step <= 2; step++) {
        uint64_t get = channel.get;
        struct answer answer = model_step(&channel, &lent);

        length += print_step(text + length, sizeof text - (size_t)length, step, get, answer);
    }
    check(model_step(&channel, &lent).kind == KIND_IDLE, "a further step is idle", 3, 0);
    snprintf(text + length, sizeof text - (size_t)length, "end=idle steps=2 get=%" PRIu64 " ref=%u\n",
             channel.get, channel.ref);
    check(strcmp(text, printed) == 0, "the printed example", 3, 0);
}

/* ---- STATE, read a second time ---- */

/* R32: the widths that are the same in both modes. */
static const struct {
    unsigned at;
    unsigned width;
} widths[] = {
    {AT_COUNT, 24},      {AT_SLI_MASK, 12},  {AT_METHOD, 11},
    {AT_LAST_ENGINE, 5}, {AT_SUBCHANNEL, 3}, {AT_SEMAPHORE_ADDRESS_HIGH, 8},
};

/* R32: the same widths, and those of the eight engines. */
static bool widths_hold(const struct record *record)
{
    for (unsigned i = 0; i < sizeof widths / sizeof widths[0]; i++)
        if (record->word[widths[i].at] >> widths[i].width != 0)
            return false;
    for (unsigned i = 0; i < SUBCHANNELS; i++)
        if (record->word[AT_ENGINE_0 + i] >> 5 != 0)
            return false;
    return true;
}

/* R34: the numbers that opening could have been given. */
static bool combination_holds(const struct record *record)
{
    uint32_t level = record->word[AT_LEVEL];
    uint32_t mode = record->word[AT_MODE];
    uint32_t order = record->word[AT_IB_ORDER];

    if (level > 5 || mode > 1 || (record->word[AT_SLI] != 0 && level < 3))
        return false;
    return mode == MODE_NV04 ? order == 0 : level >= 4 && order <= 12;
}

/* R32, R33: the widths that the mode gives, and multiples of 4: to be asked where the combination holds. */
static bool addresses_hold(const struct record *record)
{
    bool ib = record->word[AT_MODE] == MODE_IB;
    uint32_t places = UINT32_C(1) << record->word[AT_IB_ORDER];
    uint32_t high = record->word[AT_GET_HIGH] | record->word[AT_PUT_HIGH] | record->word[AT_DMA_MGET_HIGH];
    uint32_t low = record->word[AT_GET] | record->word[AT_PUT] | record->word[AT_RETURN_ADDRESS];

    return high >> (ib ? 8 : 0) == 0 && low % 4 == 0 && record->word[AT_IB_GET] < places &&
           record->word[AT_IB_PUT] < places;
}

static bool holds(const struct record *record)
{
    return combination_holds(record) && widths_hold(record) && addresses_hold(record);
}

/* A record that holds, or nearly: a channel that was opened, with up to five words drawn anew. */
static struct record draw_record(struct draw *draw)
{
    struct setting setting = draw_setting(draw);
    uint32_t order = setting.mode == MODE_IB ? draw_below(draw, 13) : 0;
    struct channel channel = at(setting.level, setting.mode, setting.sli);
    struct record record = record_of(&channel);

    record.word[AT_IB_ORDER] = order;
    for (uint32_t changes = draw_below(draw, 6); changes > 0; changes--) {
        uint32_t place = draw_below(draw, CHANNEL_WORDS);
        uint32_t number = draw_number(draw);

        record.word[place] = number >> draw_below(draw, 32);
    }
    /* R32: there is no fourth mode. */
    record.word[AT_ACQUIRE_MODE] %= ACQUIRE_MODES;
    /* R32, S26, S33: nor a seventh error; RESERVED_CMD has one of four whys, and any other none. */
    record.word[AT_PUSHER_ERROR] %= PUSHER_PROTECTION + 1;
    record.word[AT_PUSHER_WHY] =
        record.word[AT_PUSHER_ERROR] == PUSHER_RESERVED_CMD ? WHY_FORM + record.word[AT_PUSHER_WHY] % 4 : 0;
    return record;
}

/* R13, R26, R27, R31: STATE exactly where the second reading has it, of a step and of a put. No refusal
 * changes channel or memory. */
static void test_state(struct draw *draw)
{
    struct record record = draw_record(draw);
    const struct channel before = channel_of(&record);
    struct setting setting = before.setup.setting;
    struct channel channel = before;
    uint32_t refusal = model_step(&channel, &scene.lent).refusal;
    uint32_t put = draw_number(draw);

    check((refusal == REFUSAL_STATE) == !holds(&record), "STATE of a step", setting.level, setting.mode);
    if (refusal != REFUSAL_NONE)
        check(same_channel(&channel, &before) &&
                  memcmp(scene.semaphores, scene.expected, sizeof scene.expected) == 0,
              "a refused step", setting.level, setting.mode);
    channel = before;
    refusal = model_set_put(&channel, put >> draw_below(draw, 32));
    check((refusal == REFUSAL_STATE) == !holds(&record), "STATE of put", setting.level, setting.mode);
    if (refusal != REFUSAL_NONE)
        check(same_channel(&channel, &before), "a refused put", setting.level, setting.mode);
}

/* ---- Runs at random ---- */

enum { POOL = 24 };

/* Pools of which the last words are lent, so that a sanitizer sees a read past the end. */
static uint32_t word_pool[POOL];
static uint64_t entry_pool[POOL];
static uint32_t table_pool[POOL];
static uint32_t semaphore_pool[POOL];

static struct lent draw_lent(struct draw *draw)
{
    size_t words = POOL - draw_below(draw, 3);
    size_t entries = POOL - draw_below(draw, 3);
    size_t table = POOL - (draw_below(draw, 8) == 0 ? draw_below(draw, 8) : 0);
    size_t semaphores = POOL - (draw_below(draw, 8) == 0 ? draw_below(draw, POOL) : 0);
    uint64_t clock = draw_number(draw);

    return (struct lent){.words = word_pool + POOL - words,
                         .word_count = words,
                         .entries = entry_pool + POOL - entries,
                         .entry_count = entries,
                         .table = table_pool + POOL - table,
                         .table_count = table,
                         .semaphores = semaphore_pool + POOL - semaphores,
                         .semaphore_count = semaphores,
                         .clock = clock << 32 | draw_number(draw)};
}

/* A word of a run: mostly commands with methods that do something, small numbers, jumps within the pool. */
static uint32_t draw_run_word(struct draw *draw)
{
    static const uint32_t numbers[] = {0x00, 0x50, 0x60, 0x64, 0x68,  0x6c,  0x80,  0x10,
                                       0x14, 0x18, 0x1c, 0x1c, 0x100, 0x180, 0x1ffc};
    uint32_t choice = draw_below(draw, 8);
    uint32_t count = draw_below(draw, 3) << 18;
    uint32_t subchannel = draw_below(draw, 2) << 13;
    uint32_t number = numbers[draw_below(draw, sizeof numbers / sizeof numbers[0])];
    uint32_t target = 4 * draw_below(draw, POOL);

    if (choice < 4)
        return count | subchannel | number | draw_below(draw, 2) << 30;
    if (choice < 6)
        return draw_below(draw, 8);
    if (choice == 6)
        return target | draw_below(draw, 3);
    return draw_word(draw);
}

static void draw_pools(struct draw *draw)
{
    for (unsigned i = 0; i < POOL; i++) {
        uint64_t address = 4 * draw_below(draw, POOL);
        uint64_t size = draw_below(draw, 6);
        uint64_t not_main = draw_below(draw, 2);

        word_pool[i] = draw_run_word(draw);
        entry_pool[i] = size << 42 | not_main << 41 | address;
        table_pool[i] = i % 4 == 3 ? 0x30002 : draw_below(draw, 8);
        semaphore_pool[i] = draw_below(draw, 8);
    }
}

/* S3, P17, P29: at most the semaphore words of a release are others than before, one or four. */
static void check_memory(const uint32_t *before, const struct lent *lent, const struct channel *channel,
                         struct answer answer)
{
    bool is_long = answer.method == 0x1c;
    uint64_t address = is_long ? channel->semaphore_address : channel->semaphore_offset;
    uint64_t first = POOL - lent->semaphore_count + address / 4;
    uint64_t end = answer.kind != KIND_RELEASE ? first : first + (is_long ? 4 : 1);
    uint32_t written[] = {is_long ? channel->semaphore_sequence : answer.parameter, 0, (uint32_t)lent->clock,
                          (uint32_t)(lent->clock >> 32)};

    for (size_t i = 0; i < POOL; i++) {
        bool is_written = i >= first && i < end;

        check(semaphore_pool[i] == (is_written ? written[i - first] : before[i]), "no other semaphore word",
              0, 0);
    }
}

static bool is_stopped(const struct channel *channel)
{
    return channel->pusher_error != 0 || channel->puller_error != 0;
}

static bool same_setup(const struct channel *before, const struct channel *after)
{
    struct record first = record_of(before);
    struct record second = record_of(after);

    return memcmp(first.word, second.word, AT_GET * sizeof first.word[0]) == 0 &&
           first.word[AT_SLI_MASK] == second.word[AT_SLI_MASK];
}

/* S3, S4, S8, S27, S31, S33, P20: what every step keeps, whatever it does. */
static void check_kept(const struct channel *before, const struct channel *after, struct answer answer)
{
    struct setting setting = before->setup.setting;
    bool quiet = answer.refusal != 0 || answer.kind == KIND_STOPPED || answer.kind == KIND_IDLE;
    bool ib = setting.mode == MODE_IB;

    check(answer.refusal == REFUSAL_NONE || answer.refusal == REFUSAL_TABLE, "never refused as STATE",
          setting.level, setting.mode);
    check(!quiet || same_channel(before, after), "nothing changes", setting.level, setting.mode);
    check((answer.kind == KIND_STOPPED) == (is_stopped(before) && answer.refusal == 0), "stopped",
          setting.level, setting.mode);
    check((answer.kind == KIND_ERROR) == (!is_stopped(before) && is_stopped(after)), "an error stops",
          setting.level, setting.mode);
    check((after->pusher_why != WHY_NONE) == (after->pusher_error == PUSHER_RESERVED_CMD),
          "a why with RESERVED_CMD alone", setting.level, setting.mode);
    check(same_setup(before, after), "the set-up stays", setting.level, setting.mode);
    check(before->ib_put == after->ib_put && (ib || before->put == after->put), "put stays", setting.level,
          setting.mode);
    check(ib ? !after->subroutine : !after->dma_mget_valid && after->ib_get == 0, "the other mode's part",
          setting.level, setting.mode);
}

/* P32: the same step with another clock. Only a long release writes other words then, and only the two that
 * are the clock's. */
static void check_clock(const uint32_t *before, const struct lent *lent, const struct channel *channel,
                        const struct channel *after, struct answer answer)
{
    uint32_t semaphores[POOL];
    struct lent other = *lent;
    struct channel further = *channel;
    bool is_long = answer.kind == KIND_RELEASE && answer.method == 0x1c;
    size_t first = POOL - lent->semaphore_count;
    size_t clock = is_long ? first + (size_t)(channel->semaphore_address / 4) + 2 : POOL;

    memcpy(semaphores, before, sizeof semaphores);
    other.semaphores = semaphores + first;
    other.clock = ~lent->clock;
    check(same_answer(model_step(&further, &other), answer), "the event of another clock", 0, 0);
    check(same_channel(&further, after), "the channel of another clock", 0, 0);
    for (size_t i = 0; i < POOL; i++)
        check(semaphores[i] == (i == clock || i == clock + 1 ? ~semaphore_pool[i] : semaphore_pool[i]),
              "the memory of another clock", 0, 0);
}

/* S10: the same step in IB mode with another limit, which changes nothing but itself. */
static void check_limit(const uint32_t *before, const struct lent *lent, const struct channel *channel,
                        const struct channel *after, struct answer answer)
{
    uint32_t semaphores[POOL];
    struct lent other = *lent;
    struct channel further = *channel;
    struct channel wanted = *after;

    memcpy(semaphores, before, sizeof semaphores);
    other.semaphores = semaphores + POOL - lent->semaphore_count;
    further.setup.dma_limit = wanted.setup.dma_limit = ~channel->setup.dma_limit;
    check(same_answer(model_step(&further, &other), answer), "the event of another limit", 0, MODE_IB);
    check(same_channel(&further, &wanted), "the channel of another limit", 0, MODE_IB);
    check(memcmp(semaphores, semaphore_pool, sizeof semaphores) == 0, "the memory of another limit", 0,
          MODE_IB);
}

/* R7, S31: put is refused by its own rule alone. */
static void run_put(struct draw *draw, struct channel *channel)
{
    struct setting setting = channel->setup.setting;
    uint32_t put = draw_below(draw, 4 * POOL + 8);
    bool wrong = setting.mode == MODE_IB ? put >> channel->setup.ib_order != 0 : put % 4 != 0;
    struct channel before = *channel;
    uint32_t refusal = model_set_put(channel, put);

    check(refusal == (wrong ? REFUSAL_PUT : REFUSAL_NONE), "PUT and no other refusal", setting.level,
          setting.mode);
    check(!wrong || same_channel(&before, channel), "a refused put", setting.level, setting.mode);
}

static void run_step(struct draw *draw, struct channel *channel)
{
    uint32_t semaphores[POOL];
    struct lent lent = draw_lent(draw);
    struct channel before = *channel;
    struct answer answer;

    memcpy(semaphores, semaphore_pool, sizeof semaphores);
    answer = model_step(channel, &lent);
    check_kept(&before, channel, answer);
    check_memory(semaphores, &lent, &before, answer);
    check_clock(semaphores, &lent, &before, channel, answer);
    if (before.setup.setting.mode == MODE_IB)
        check_limit(semaphores, &lent, &before, channel, answer);
}

/* S31: a channel as opening leaves it, also a refused one, over puts and steps, each with its own lent
 * memory. */
static void test_run(struct draw *draw)
{
    struct setup setup = {draw_setting(draw), 0, 0, 0};
    struct channel channel;

    setup.ib_order = draw_below(draw, 6);
    setup.dma_limit = draw_below(draw, 4) == 0 ? draw_below(draw, 4 * POOL) : UINT32_MAX;
    setup.sli_mask = draw_below(draw, 4200);
    draw_pools(draw);
    model_open(&channel, setup, NULL, 0);
    run_put(draw, &channel);
    for (unsigned i = 0; i < 60; i++) {
        if (draw_below(draw, 8) == 0)
            run_put(draw, &channel);
        run_step(draw, &channel);
    }
}

/* Two runs side by side, the second with semaphore words of its own. */
struct twins {
    struct channel one;
    struct channel other;
    uint32_t semaphores[POOL];
};

/* P32: two channels below level 5 that differ in the long semaphore alone. They have the same mode, be it a
 * long one, as long as no acquire is active; and what old semaphores ask for, as often as not. */
static void open_twins(struct draw *draw, struct twins *twins)
{
    struct setup setup = {draw_setting(draw), 0, UINT32_MAX, 5};
    bool is_ib = setup.setting.mode == MODE_IB;
    struct channel *one = &twins->one;

    if (setup.setting.level == 5)
        setup.setting.level = 4;
    setup.ib_order = draw_below(draw, 6);
    model_open(one, setup, NULL, 0);
    model_set_put(one, is_ib ? (UINT32_C(1) << setup.ib_order) - 1 : 4 * POOL);
    one->acquire_mode = draw_below(draw, ACQUIRE_MODES);
    one->dma_semaphore = draw_below(draw, 2);
    one->offset_valid = draw_once_in(draw, 2);
    twins->other = *one;
    twins->other.semaphore_address = draw_address(draw);
    twins->other.semaphore_sequence = draw_below(draw, 8);
    memcpy(twins->semaphores, semaphore_pool, sizeof twins->semaphores);
}

/* A channel with the long semaphore of another. */
static struct channel with_long(const struct channel *channel, const struct channel *other)
{
    struct channel with = *channel;

    with.semaphore_address = other->semaphore_address;
    with.semaphore_sequence = other->semaphore_sequence;
    return with;
}

/* P32: a step of both, with two clocks: the same event and memory, and the same channel but for what differed
 * before and stays. */
static void step_twins(struct draw *draw, struct twins *twins)
{
    struct lent lent = draw_lent(draw);
    struct lent other = lent;
    struct channel wanted = twins->other;
    struct answer answer;

    other.semaphores = twins->semaphores + POOL - lent.semaphore_count;
    other.clock = ~lent.clock;
    answer = model_step(&twins->one, &lent);
    check(same_answer(model_step(&twins->other, &other), answer), "the same event", 0, 0);
    check(memcmp(twins->semaphores, semaphore_pool, sizeof semaphore_pool) == 0, "the same memory", 0, 0);
    check(twins->one.semaphore_address == 0 && twins->one.semaphore_sequence == 0, "both stay", 0, 0);
    wanted = with_long(&twins->one, &wanted);
    check(same_channel(&twins->other, &wanted), "the same channel in all else", 0, 0);
}

/* P32: what no step below level 5 looks at, over runs. */
static void test_unlooked(struct draw *draw)
{
    struct twins twins;

    draw_pools(draw);
    open_twins(draw, &twins);
    for (unsigned i = 0; i < 40; i++)
        step_twins(draw, &twins);
}

/* ---- The program ---- */

static void test_nv04(uint32_t level)
{
    test_protection(level, MODE_NV04);
    test_stored_whys(level, MODE_NV04, false);
    test_address_width(level, MODE_NV04);
    test_jumps(level);
    test_call(level);
    test_return(level);
    test_present(level);
}

static void test_puller(uint32_t level)
{
    test_bind(level);
    test_forward(level);
    test_ref_and_events(level);
    test_retry(level);
    test_long_retry(level);
    if (level < 2)
        return;
    test_dma(level);
    test_offset(level);
    test_acquire(level);
    test_release(level);
    test_old_mode(level);
}

/* The cases of long semaphores that level 5 alone has. */
static void test_longs(void)
{
    test_address_high();
    test_address_low();
    test_sequence();
    test_operations();
    test_long_release();
    test_far_triggers();
    test_long_acquire();
    test_fresh_release();
    test_worked_trigger();
}

static void test_ib(uint32_t level)
{
    test_step_order(level);
    test_protection(level, MODE_IB);
    test_stored_whys(level, MODE_IB, false);
    test_stored_whys(level, MODE_IB, true);
    test_address_width(level, MODE_IB);
    test_conditional(level, MODE_IB);
    test_discard(level, MODE_IB);
}

/* The cases that each level or mode has. */
static void test_levels(void)
{
    for (uint32_t mode = MODE_NV04; mode <= MODE_IB; mode++) {
        test_addresses(mode);
        test_roles(mode);
        test_method_commands(mode);
    }
    for (uint32_t level = 0; level <= 5; level++) {
        test_nv04(level);
        test_puller(level);
        if (level >= 3) {
            test_stored_whys(level, MODE_NV04, true);
            test_conditional(level, MODE_NV04);
            test_discard(level, MODE_NV04);
        }
        if (level >= 4)
            test_ib(level);
    }
}

int main(void)
{
    struct draw draw = {0x000c};

    test_opening();
    test_repeats();
    test_put();
    test_step_refusals();
    test_protection_far();
    test_worked_limit();
    test_levels();
    test_long();
    test_flow_in_ib();
    test_reserved_rows();
    test_increasing();
    test_wrap();
    test_entries();
    test_entry_indices();
    test_entries_beyond();
    test_entry_overrun();
    test_mget();
    test_entry_ends();
    test_longs();
    test_printed();
    for (unsigned i = 0; i < 100000; i++)
        test_state(&draw);
    for (unsigned i = 0; i < 100000; i++) {
        test_second_reserved(&draw);
        test_second_read(&draw);
        test_second_method(&draw);
        test_second_retry(&draw);
    }
    for (unsigned i = 0; i < 5000; i++)
        test_run(&draw);
    for (unsigned i = 0; i < 5000; i++)
        test_unlooked(&draw);
    printf("channel model: %" PRIu64 " checks\n", checks);
    return 0;
}

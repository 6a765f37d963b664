/* The SINGLE records: one step of any channel, well-formed or not, by what the step has to do. */
#include "channel_vectors.h"
#include "pattern.h"

/* A question: a channel, the words that the record gives of each pool, and how much is lent. */
struct single {
    struct channel channel;
    struct memory memory;
    struct lens lens;
};

static uint32_t table_pool[TABLE_POOL];
static uint32_t word_pool[POOL];
static uint32_t semaphore_pool[POOL];

/* Fills the pools. Words that the record doesn't give are 0, those of the table 0x80000000 plus their place,
 * as in every record. */
static void fill_pools(const struct memory *memory)
{
    for (uint32_t i = 0; i < TABLE_POOL; i++)
        table_pool[i] = i < memory->table_count ? memory->table[i] : 0x80000000 + i;
    for (uint32_t i = 0; i < GIVEN; i++) {
        word_pool[i] = i < memory->word_count ? memory->words[i] : 0;
        semaphore_pool[i] = i < memory->semaphore_count ? memory->semaphores[i] : 0;
    }
}

/* The answer is the step's refusal. */
static uint32_t put_single(struct vectors *vectors, const struct single *single)
{
    static struct buffer buffer;
    const struct lens *lens = &single->lens;
    uint32_t lents[] = {lens->words, lens->entries, lens->table, lens->semaphores};
    uint64_t clock = draw_clock(&vectors->draw);
    struct lent lent = {word_pool,   lens->words,    single->memory.entries, lens->entries, table_pool,
                        lens->table, semaphore_pool, lens->semaphores,       clock};
    struct channel channel = single->channel;
    struct answer answer;
    size_t header;

    fill_pools(&single->memory);
    buffer.count = 0;
    add_channel(vectors, &buffer, &channel);
    add_words(&buffer, lents, sizeof lents / sizeof lents[0]);
    add_clock(&buffer, clock);
    add_counted(&buffer, single->memory.table, single->memory.table_count);
    add_memory(&buffer, &single->memory);
    header = buffer.count++;
    answer = add_step(vectors, &buffer, header, &channel, &lent);
    put_record(vectors, SINGLE, buffer.words, buffer.count, answer.kind);
    count_read(vectors, SINGLE_READ, &single->channel, &lent, answer);
    count_why(vectors, SINGLE_WHY, &channel, answer);
    if (answer.refusal != REFUSAL_NONE)
        count_one(vectors, SINGLE_REFUSED, answer.refusal);
    /* Behind the words that records give, released words would stay. */
    for (uint32_t i = GIVEN; i < lens->semaphores; i++)
        semaphore_pool[i] = 0;
    return answer.refusal;
}

/* ---- Settings ---- */

/* Settings that aren't refused, those with SLI enabled twice: active and not. */
struct state {
    struct setting setting;
    bool is_active;
};

enum { STATES = 18 };

static struct state state_at(unsigned i)
{
    static const struct state states[STATES] = {
        {{0, MODE_NV04, false}, true}, {{1, MODE_NV04, false}, true}, {{2, MODE_NV04, false}, false},
        {{3, MODE_NV04, false}, true}, {{3, MODE_NV04, true}, true},  {{3, MODE_NV04, true}, false},
        {{4, MODE_NV04, false}, true}, {{4, MODE_NV04, true}, true},  {{4, MODE_NV04, true}, false},
        {{4, MODE_IB, false}, false},  {{4, MODE_IB, true}, true},    {{4, MODE_IB, true}, false},
        {{5, MODE_NV04, false}, true}, {{5, MODE_NV04, true}, true},  {{5, MODE_NV04, true}, false},
        {{5, MODE_IB, false}, true},   {{5, MODE_IB, true}, true},    {{5, MODE_IB, true}, false},
    };

    return states[i];
}

/* A setting of a level that isn't refused. */
static struct setting draw_setting_at(struct draw *draw, uint32_t level)
{
    struct setting setting = draw_setting(draw);

    while (setting.level != level)
        setting = draw_setting(draw);
    return setting;
}

/* ---- A channel that reads a word ---- */

static void set_word(struct single *single, uint32_t word)
{
    single->memory.words[single->memory.word_count - 1] = word;
}

/* S10: a channel that is about to read the last of the words given, which may read it by limit and lending,
 * and takes methods. In IB mode, which has no use for a limit, that is 0 as often as not. What the word is to
 * be is left open. */
static struct single draw_reading(struct draw *draw, struct setting setting)
{
    struct single single = {.channel = draw_channel(draw, setting)};
    struct channel *channel = &single.channel;
    uint32_t least;

    single.memory.word_count = 1 + draw_below(draw, 2);
    single.lens.words = single.memory.word_count + draw_below(draw, 2);
    channel->get = 4 * (single.memory.word_count - 1);
    if (channel->put == channel->get)
        channel->put += 4;
    least = setting.mode == MODE_IB ? 0 : (uint32_t)channel->get;
    channel->setup.dma_limit = draw_once_in(draw, 2) ? least : UINT32_MAX;
    channel->sli_active = true;
    return single;
}

/* The word is a parameter of a method, given by its byte number. */
static struct single draw_parameter(struct draw *draw, struct setting setting, uint32_t method,
                                    uint32_t parameter)
{
    struct single single = draw_reading(draw, setting);

    single.channel.count_awaited = false;
    if (single.channel.count == 0)
        single.channel.count = 1;
    single.channel.method = method / 4;
    set_word(&single, parameter);
    return single;
}

/* The word is a command. */
static struct single draw_command(struct draw *draw, struct setting setting, uint32_t word)
{
    struct single single = draw_reading(draw, setting);

    single.channel.count_awaited = false;
    single.channel.count = 0;
    set_word(&single, word);
    return single;
}

/* ---- Objects and semaphores ---- */

enum { OBJECTS = 2, FIRST_HANDLE = 5 };

static void give_object(struct single *single, uint32_t handle, uint32_t engine, uint32_t address,
                        uint32_t class)
{
    uint32_t *entry = single->memory.table + single->memory.table_count;

    entry[0] = handle;
    entry[1] = engine;
    entry[2] = address;
    entry[3] = class;
    single->memory.table_count += ENTRY_WORDS;
    single->lens.table = single->memory.table_count;
}

/* P1: objects with the handles FIRST_HANDLE and up; class word and engine are good ones as often as not. */
static void give_objects(struct draw *draw, struct single *single)
{
    for (uint32_t i = 0; i < OBJECTS; i++) {
        uint32_t engine = draw_any_number(draw);
        uint32_t address = draw_any_number(draw);
        uint32_t class = draw_once_in(draw, 2) ? 0x30002 : draw_number(draw);

        give_object(single, FIRST_HANDLE + i, engine, address, class);
    }
}

/* In three of four cases a handle that there is. */
static uint32_t draw_handle(struct draw *draw)
{
    uint32_t object = draw_below(draw, OBJECTS);

    return FIRST_HANDLE + (draw_once_in(draw, 4) ? OBJECTS : object);
}

/* P14: semaphore words 0 and 1 of values 0 to 2, the offset at one of them, or right past them. */
static void give_semaphores(struct draw *draw, struct single *single)
{
    struct memory *memory = &single->memory;

    memory->semaphore_count = 2;
    single->lens.semaphores = 1 + draw_below(draw, 2);
    for (uint32_t i = 0; i < memory->semaphore_count; i++)
        memory->semaphores[i] = draw_below(draw, 3);
    single->channel.semaphore_offset = draw_below(draw, 4 * single->lens.semaphores + 1);
}

/* P29, P30: six semaphore words and a sequence of values 1 to 3; the long address at any byte of the first
 * four words, from the last of which on a release has not enough. */
static void give_long(struct draw *draw, struct single *single)
{
    struct memory *memory = &single->memory;

    memory->semaphore_count = 6;
    single->lens.semaphores = memory->semaphore_count;
    for (uint32_t i = 0; i < memory->semaphore_count; i++)
        memory->semaphores[i] = 1 + draw_below(draw, 3);
    single->channel.semaphore_address = draw_below(draw, 4 * 4);
    single->channel.semaphore_sequence = 1 + draw_below(draw, 3);
}

static uint32_t draw_offset(struct draw *draw)
{
    static const uint32_t offsets[] = {0, 4, 0xffc, 0x1000, 0xfffc, 0x10000, 1, 2, 0xfffe};

    return draw_among(draw, offsets, sizeof offsets / sizeof offsets[0]);
}

/* P25, P26, P27, P28: a parameter of 0x10 to 0x1c, in three of four cases a good one. */
static uint32_t draw_long_parameter(struct draw *draw, uint32_t method)
{
    static const uint32_t operations[] = {TRIGGER_EQUAL, TRIGGER_RELEASE, TRIGGER_GREATER, 3};
    uint32_t any = draw_any_number(draw);
    bool is_good = !draw_once_in(draw, 4);

    if (method == 0x10 && is_good)
        return any >> 24;
    if (method == 0x14 && is_good)
        return any & ~UINT32_C(3);
    return method == 0x1c ? operations[any % 4] : any;
}

/* A parameter that a method may do something with. */
static uint32_t draw_parameter_of(struct draw *draw, uint32_t method)
{
    if (method == 0x00 || method == 0x60 || (method >= 0x180 && method <= 0x1fc))
        return draw_handle(draw);
    if (method == 0x64)
        return draw_offset(draw);
    if (method == 0x68 || method == 0x6c)
        return draw_below(draw, 3);
    if (method >= 0x10 && method <= 0x1c)
        return draw_long_parameter(draw, method);
    return draw_any_number(draw);
}

/* A parameter of a method, with the memory that it may need. */
static struct single draw_method(struct draw *draw, struct setting setting, uint32_t method)
{
    uint32_t parameter = draw_parameter_of(draw, method);
    struct single single = draw_parameter(draw, setting, method, parameter);

    if (method == 0x68 || method == 0x6c)
        give_semaphores(draw, &single);
    else if (method == 0x1c)
        give_long(draw, &single);
    else if (method == 0x00 || method == 0x60 || method >= 0x100)
        give_objects(draw, &single);
    return single;
}

/* W18, S24, S28, P3, P22: every method to 0x100 at every setting, SLI active or not. Levels of many settings
 * try what they lack at one setting in three. */
static void put_methods(struct vectors *vectors)
{
    for (uint32_t i = 0; i < STATES; i++)
        for (uint32_t number = 0; number <= 0x40; number++) {
            struct state state = state_at(i);
            struct single single = draw_method(&vectors->draw, state.setting, 4 * number);

            single.channel.sli_active = state.is_active;
            if (model_present(state.setting.level, number) || i < 3 || (i + number) % 3 == 0)
                put_single(vectors, &single);
        }
}

/* S24, P3, P6, P7, P8, P20, P21, P25: the special methods and those for the engine once more, at any level
 * that has them or not. */
static void put_more_methods(struct vectors *vectors)
{
    static const uint32_t methods[] = {0x00, 0x10,  0x24,  0x50,  0x60,  0x64,  0x68,  0x6c,
                                       0x80, 0x100, 0x17c, 0x180, 0x1fc, 0x200, 0x1ffc};

    for (unsigned i = 0; i < 40; i++)
        for (unsigned j = 0; j < sizeof methods / sizeof methods[0]; j++) {
            struct single single = draw_method(&vectors->draw, draw_setting(&vectors->draw), methods[j]);

            put_single(vectors, &single);
        }
}

/* ---- The puller, case by case ---- */

/* P1, P4, P5: engines whose bits 4-0 are 0, and such that have others above them. */
static void put_engines(struct vectors *vectors)
{
    static const uint32_t engines[] = {0, 1, 31, 32, 33, 0x80000000, UINT32_MAX, 0xffffffe0};

    for (uint32_t i = 0; i < 6 * sizeof engines / sizeof engines[0]; i++) {
        struct setting setting = draw_setting_at(&vectors->draw, i % 6);
        struct single single = draw_parameter(&vectors->draw, setting, 0x00, 7);

        give_object(&single, 7, engines[i / 6], draw_any_number(&vectors->draw), 0);
        put_single(vectors, &single);
    }
}

/* P18, P19: methods around 0x180 to 0x1fc, with a handle that there is or isn't, on a subchannel bound or
 * not. */
static void put_forwards(struct vectors *vectors)
{
    static const uint32_t methods[] = {0x100, 0x17c, 0x180, 0x1bc, 0x1fc, 0x200, 0x280, 0x1ffc};

    for (uint32_t i = 0; i < 6 * 4 * sizeof methods / sizeof methods[0]; i++) {
        struct setting setting = draw_setting_at(&vectors->draw, i % 6);
        struct single single = draw_parameter(&vectors->draw, setting, methods[i / 24], 7);

        give_object(&single, i / 6 % 2 == 0 ? 7 : 8, 0, draw_any_number(&vectors->draw), 0);
        single.channel.engines[single.channel.subchannel] =
            i / 12 % 2 == 0 ? 0 : 1 + draw_below(&vectors->draw, 31);
        put_single(vectors, &single);
    }
}

/* P2: handles that stand more than once, 0 among them, whatever the other words of the entries are. */
static void put_lookups(struct vectors *vectors)
{
    static const uint32_t methods[] = {0x00, 0x60, 0x180};

    for (uint32_t i = 0; i < 3 * 24; i++) {
        struct draw *draw = &vectors->draw;
        struct setting setting = draw_setting_at(draw, 2 + draw_below(draw, 4));
        struct single single = draw_parameter(draw, setting, methods[i % 3], draw_below(draw, 3));

        for (unsigned j = 0; j < 4; j++) {
            uint32_t handle = draw_below(draw, 3);
            uint32_t engine = draw_below(draw, 3);

            give_object(&single, handle, engine, draw_below(draw, 3), 0x30002);
        }
        single.lens.table = ENTRY_WORDS * draw_below(draw, 5);
        put_single(vectors, &single);
    }
}

/* P2: entries of the table that the record doesn't give, the last that is lent and the one after it. */
static void put_far_lookups(struct vectors *vectors)
{
    static const uint32_t methods[] = {0x00, 0x60, 0x180};
    static const uint32_t entries[] = {0, 1, 15, 16, 255, 256, 1022, 1023, 1024};

    for (uint32_t i = 0; i < 3 * 2 * sizeof entries / sizeof entries[0]; i++) {
        uint32_t entry = entries[i / 6];
        uint32_t lent = ENTRY_WORDS * (entry + i / 3 % 2);
        struct setting setting = draw_setting_at(&vectors->draw, 5);
        struct single single =
            draw_parameter(&vectors->draw, setting, methods[i % 3], 0x80000000 + ENTRY_WORDS * entry);

        single.lens.table = lent < TABLE_LIMIT ? lent : TABLE_LIMIT;
        put_single(vectors, &single);
    }
}

/* P1, P9, P10: 0x60 with every class, write-only and page table bit, right and wrong, and bits without a
 * meaning. */
static void put_classes(struct vectors *vectors)
{
    static const uint32_t classes[] = {0x30002, 0x20002, 0x10002, 0x00002, 0x30000, 0x30003,
                                       0x30006, 0x38002, 0x3003d, 0x30102, 0,       UINT32_MAX};

    for (uint32_t i = 0; i < 4 * 2 * sizeof classes / sizeof classes[0]; i++) {
        uint32_t unnamed = i / 4 % 2 == 0 ? 0 : draw_number(&vectors->draw) << 18;
        struct setting setting = draw_setting_at(&vectors->draw, 2 + i % 4);
        struct single single = draw_parameter(&vectors->draw, setting, 0x60, 9);

        give_object(&single, 9, 0, draw_any_number(&vectors->draw), classes[i / 8] | unnamed);
        put_single(vectors, &single);
    }
}

/* P11, P12: 0x64 with each bit of the offset at issue. */
static void put_offsets(struct vectors *vectors)
{
    for (uint32_t i = 0; i < 4 * 33; i++) {
        struct setting setting = draw_setting_at(&vectors->draw, 2 + i % 4);
        uint32_t offset = i / 4 == 32 ? 0 : UINT32_C(1) << i / 4;
        struct single single;

        if (draw_once_in(&vectors->draw, 3))
            offset |= draw_number(&vectors->draw) & 0xfff;
        single = draw_parameter(&vectors->draw, setting, 0x64, offset);
        put_single(vectors, &single);
    }
}

/* P13, P14, P15, P17: acquire and release, set up or not, the word the first, the last, the one past the end
 * or far behind it; the offset at any byte of a word; the value found or not. */
static void put_semaphores(struct vectors *vectors)
{
    for (uint32_t i = 0; i < 4 * 2 * 2 * 2 * 8; i++) {
        struct draw *draw = &vectors->draw;
        uint32_t level = 2 + i % 4;
        bool is_set = i / 4 % 2 == 0;
        uint32_t method = i / 8 % 2 == 0 ? 0x68 : 0x6c;
        uint32_t offsets[] = {0, 3, 4, 7, 8, 11, 0x10000, UINT32_MAX};
        struct single single = draw_parameter(draw, draw_setting_at(draw, level), method, i / 16 % 2);

        give_semaphores(draw, &single);
        single.lens.semaphores = 2;
        single.channel.semaphore_offset = offsets[i / 32];
        /* The other level's condition is the other way about, so that it is seen not to count. */
        single.channel.dma_semaphore = is_set == (level < 4) ? 1 + draw_below(draw, 9) : 0;
        single.channel.offset_valid = is_set == (level >= 4);
        put_single(vectors, &single);
    }
}

/* P14, P17: a release far behind the words that the record gives. */
static void put_far_releases(struct vectors *vectors)
{
    static const uint32_t places[] = {64, 1023, 1024, 16383};

    for (uint32_t i = 0; i < 4 * 3; i++) {
        struct setting setting = draw_setting_at(&vectors->draw, 2 + i % 4);
        struct single single = draw_parameter(&vectors->draw, setting, 0x6c, 0xfeedf00d);

        single.channel.semaphore_offset = 4 * places[i % 4] + i / 4;
        single.channel.dma_semaphore = 1;
        single.channel.offset_valid = true;
        single.lens.semaphores = places[i % 4] + 1 - i / 8;
        put_single(vectors, &single);
    }
}

/* ---- Long semaphores, case by case ---- */

/* A parameter of one of the methods 0x10 to 0x24 at level 5, with a long semaphore. An old one's object and
 * offset are there or not, as neither is asked for. */
static struct single draw_long(struct draw *draw, uint32_t method, uint32_t parameter)
{
    struct single single = draw_parameter(draw, draw_setting_at(draw, 5), method, parameter);

    give_long(draw, &single);
    if (draw_once_in(draw, 2))
        single.channel.dma_semaphore = 0;
    return single;
}

/* P16, P31: a channel that tries an acquire again, at any level, with a long semaphore too. */
static struct single draw_retry(struct draw *draw, struct setting setting, uint32_t mode)
{
    struct single single = draw_reading(draw, setting);

    give_long(draw, &single);
    single.channel.acquire_active = true;
    single.channel.acquire_mode = mode;
    return single;
}

/* The long address at any byte of a word, which is given this value. */
static void give_long_word(struct draw *draw, struct single *single, uint32_t place, uint32_t word)
{
    single->channel.semaphore_address = 4 * place + draw_below(draw, 4);
    single->memory.semaphores[place] = word;
}

/* P8, P25, P26, P27, P28: every number up to 15, and such as have an operation's bits beside others, as the
 * parameter of each method from 0x10 to 0x24; of a trigger also where no semaphore word is lent. */
static void put_operations(struct vectors *vectors)
{
    static const uint32_t further[16] = {0x10,       0x12,       0x21,       0x44,      0x81,      0x102,
                                         0x104,      0x1002,     0x2001,     0x10004,   0x1000001, 0x40000002,
                                         0x80000001, 0x80000002, 0x80000004, UINT32_MAX};

    for (uint32_t i = 0; i < 32 * 7; i++) {
        uint32_t number = i % 32 < 16 ? i % 32 : further[i % 32 - 16];
        uint32_t method = i / 32 < 6 ? 0x10 + 4 * (i / 32) : 0x1c;
        struct single single = draw_long(&vectors->draw, method, number);

        if (i / 32 == 6)
            single.lens.semaphores = 0;
        put_single(vectors, &single);
    }
}

/* W18, S24, S28: the same methods below level 5, which lacks them, though all that they ask for is there. */
static void put_operations_below(struct vectors *vectors)
{
    for (uint32_t i = 0; i < 5 * 6; i++) {
        struct draw *draw = &vectors->draw;
        uint32_t method = 0x10 + 4 * (i / 5);
        uint32_t parameter = draw_long_parameter(draw, method);
        struct single single = draw_parameter(draw, draw_setting_at(draw, i % 5), method, parameter);

        give_long(draw, &single);
        put_single(vectors, &single);
    }
}

/* P25, P26, P27: halves of the address, and sequences, around the ends of what each may be. The other half
 * stays, where the one fails both do. */
static void put_addresses(struct vectors *vectors)
{
    static const uint32_t numbers[24] = {
        0,       1,          2,          3,          4,          5,          6,          7,
        0x7f,    0x80,       0xfc,       0xff,       0x100,      0x101,      0x1fc,      0x8000,
        0x10000, 0x7ffffffc, 0x80000000, 0xffffff00, 0xfffffffc, 0xfffffffd, 0xfffffffe, UINT32_MAX};

    for (uint32_t i = 0; i < 3 * 24; i++) {
        struct setting setting = draw_setting_at(&vectors->draw, 5);
        struct single single = draw_parameter(&vectors->draw, setting, 0x10 + 4 * (i % 3), numbers[i / 3]);

        put_single(vectors, &single);
    }
}

/* P29, P30: from each byte of three words on none to five words are lent; all that the record gives are
 * others than a release writes. An acquire needs one of them, and is tried where there is none and where
 * there is. */
static void put_long_ends(struct vectors *vectors)
{
    static const uint32_t places[] = {0, 1, 4};

    for (uint32_t i = 0; i < 3 * 6 * 4; i++) {
        uint32_t place = places[i % 3];
        uint32_t ahead = i / 3 % 6;
        uint32_t byte = i / 18;
        struct single single = draw_long(&vectors->draw, 0x1c, TRIGGER_RELEASE);

        single.memory.semaphore_count = 9;
        for (uint32_t j = 0; j < 9; j++)
            single.memory.semaphores[j] = 0x100 + j;
        single.lens.semaphores = place + ahead;
        single.channel.semaphore_address = 4 * place + byte;
        single.channel.semaphore_sequence = draw_any_number(&vectors->draw);
        put_single(vectors, &single);
        if (ahead >= 2)
            continue;
        set_word(&single, byte % 2 == 0 ? TRIGGER_EQUAL : TRIGGER_GREATER);
        put_single(vectors, &single);
    }
}

/* P29: a release behind the words that the record gives, of which the last may not be lent. */
static void put_far_long_releases(struct vectors *vectors)
{
    static const uint32_t places[] = {62, 64, 1023, 65535};

    for (uint32_t i = 0; i < 4 * 2; i++) {
        struct single single = draw_long(&vectors->draw, 0x1c, TRIGGER_RELEASE);

        single.channel.semaphore_address = 4 * places[i % 4] + draw_below(&vectors->draw, 4);
        single.lens.semaphores = places[i % 4] + LONG_WORDS - i / 4;
        put_single(vectors, &single);
    }
}

/* R35, P29, P30, P31: addresses far past the memory, of which every word would let an acquire pass. Cut to 32
 * bits, or its place so, many would be at a word that is lent, or would have its end there. */
static void put_far_addresses(struct vectors *vectors)
{
    static const uint64_t addresses[] = {
        0x400004,    0x80000004,  0xfffffffc,  0x100000004,  0x100000007,  0x8000000004, 0xff00000004,
        0x3fffffff0, 0x3fffffffc, 0x400000004, 0xfffffffff0, 0xfffffffffc, 0xffffffffff,
    };

    for (uint32_t i = 0; i < 7 * sizeof addresses / sizeof addresses[0]; i++) {
        static const uint32_t operations[] = {TRIGGER_RELEASE, TRIGGER_EQUAL, TRIGGER_GREATER};
        struct draw *draw = &vectors->draw;
        uint32_t which = i % 7;
        uint32_t mode = which % 2 == 1 ? ACQUIRE_EQUAL : ACQUIRE_GREATER;
        struct single single =
            which < 3 ? draw_long(draw, 0x1c, operations[which]) : draw_retry(draw, draw_setting(draw), mode);

        for (uint32_t j = 0; j < single.memory.semaphore_count; j++)
            single.memory.semaphores[j] = 7;
        single.channel.semaphore_address = addresses[i / 7];
        single.channel.semaphore_sequence = 7;
        single.channel.acquire_value = 7;
        put_single(vectors, &single);
    }
}

/* P30: words on both sides of a value, near it and half of all numbers away, and values around the ends of 32
 * bits, read with a sign or without. */
enum { DIFFERENCES = 8, VALUES = 7 };
static const uint32_t differences[DIFFERENCES] = {0,          1,          2,          0x7ffffffe,
                                                  0x7fffffff, 0x80000000, 0x80000001, UINT32_MAX};
static const uint32_t values[VALUES] = {0, 1, 0x7fffffff, 0x80000000, 0x80000001, 0xfffffffe, UINT32_MAX};

/* P30: first tries at every difference, in both modes, with what the channel holds of an acquire before. */
static void put_long_acquires(struct vectors *vectors)
{
    for (uint32_t i = 0; i < 2 * DIFFERENCES * VALUES; i++) {
        uint32_t value = values[i / 2 / DIFFERENCES];
        uint32_t word = value + differences[i / 2 % DIFFERENCES];
        struct single single = draw_long(&vectors->draw, 0x1c, i % 2 == 0 ? TRIGGER_EQUAL : TRIGGER_GREATER);

        give_long_word(&vectors->draw, &single, i % 6, word);
        single.channel.semaphore_sequence = value;
        put_single(vectors, &single);
    }
}

/* P30: whether a word that differs so from a value lets an acquire pass in a long mode. */
static bool is_met(uint32_t mode, uint32_t difference)
{
    return difference == 0 || (mode == ACQUIRE_GREATER && difference <= 0x7fffffff);
}

/* R35, P31: the same for retries, each difference at every level. By the sequence all would go the other
 * way. */
static void put_long_retries(struct vectors *vectors)
{
    for (uint32_t i = 0; i < 2 * DIFFERENCES * VALUES; i++) {
        struct draw *draw = &vectors->draw;
        uint32_t mode = i % 2 == 0 ? ACQUIRE_EQUAL : ACQUIRE_GREATER;
        uint32_t row = i / 2 / DIFFERENCES;
        uint32_t column = i / 2 % DIFFERENCES;
        uint32_t word = values[row] + differences[column];
        struct single single = draw_retry(draw, draw_setting_at(draw, (row + column) % 6), mode);

        give_long_word(draw, &single, i % 6, word);
        single.channel.acquire_value = values[row];
        single.channel.semaphore_sequence = is_met(mode, differences[column]) ? word + 1 : word;
        put_single(vectors, &single);
    }
}

/* What stands at the place that a retry goes by, its own, and at the one of the other kind of semaphore. */
enum { OWN_PASSES, OTHER_PASSES, OWN_PAST, OTHER_PAST, PLACES };

/* P16, P31: the own word passes in its mode, or doesn't; where it can, another mode would have it the other
 * way. The other word would, and so would the sequence. */
static void give_both_words(struct single *single, uint32_t own, uint32_t other, bool passes)
{
    uint32_t value = single->channel.acquire_value;
    bool is_greater = single->channel.acquire_mode == ACQUIRE_GREATER;
    uint32_t passing = is_greater ? value + 1 : value;
    uint32_t waiting = is_greater ? value - 1 : value + 1;

    single->memory.semaphores[own] = passes ? passing : waiting;
    single->memory.semaphores[other] = passes ? value - 1 : value;
    single->channel.semaphore_sequence = passes ? value + 2 : single->memory.semaphores[own];
}

/* R35, P16, P31: retries in each of the three modes at every setting, where one place passes and the other
 * doesn't, or one is lent and the other isn't. */
static void put_retry_modes(struct vectors *vectors)
{
    for (uint32_t i = 0; i < STATES * ACQUIRE_MODES * PLACES; i++) {
        struct draw *draw = &vectors->draw;
        uint32_t mode = i / STATES % ACQUIRE_MODES;
        uint32_t which = i / STATES / ACQUIRE_MODES;
        uint32_t low = draw_below(draw, 3);
        uint32_t high = low + 1 + draw_below(draw, 3);
        bool is_own_high = which == OWN_PAST || (which != OTHER_PAST && draw_once_in(draw, 2));
        uint32_t own = is_own_high ? high : low;
        uint32_t other = is_own_high ? low : high;
        uint32_t byte = draw_below(draw, 4);
        struct single single = draw_retry(draw, state_at(i % STATES).setting, mode);

        single.channel.semaphore_offset = 4 * (mode == ACQUIRE_OLD ? own : other) + byte;
        single.channel.semaphore_address = 4 * (mode == ACQUIRE_OLD ? other : own) + byte;
        give_both_words(&single, own, other, which == OWN_PASSES || which == OTHER_PAST);
        if (which == OWN_PAST || which == OTHER_PAST)
            single.lens.semaphores = high;
        put_single(vectors, &single);
    }
}

/* P32: below level 5 the same step twice, with another clock, long address and sequence. */
static void put_unlooked(struct vectors *vectors)
{
    static const uint32_t methods[] = {0x00, 0x50, 0x64, 0x68, 0x6c, 0x100, 0x68};

    for (uint32_t i = 0; i < 5 * 7; i++) {
        struct draw *draw = &vectors->draw;
        struct single single = draw_method(draw, draw_setting_at(draw, i % 5), methods[i / 5]);

        single.channel.dma_semaphore = 1;
        single.channel.offset_valid = true;
        /* The last is a retry. */
        single.channel.acquire_active = i / 5 == 6;
        single.channel.acquire_mode = ACQUIRE_OLD;
        single.channel.acquire_value = 1;
        put_single(vectors, &single);
        single.channel.semaphore_address = draw_below(draw, 8);
        single.channel.semaphore_sequence = draw_number(draw);
        put_single(vectors, &single);
    }
}

/* R8, P29, P30, P31: around the end of the largest semaphore memory. A release has its four words up to the
 * last but three, acquire and retry have theirs up to the last. */
static void put_last_longs(struct vectors *vectors)
{
    for (uint32_t i = 0; i < 6 + 4 + 4; i++) {
        struct draw *draw = &vectors->draw;
        uint32_t mode = i % 4 < 2 ? ACQUIRE_EQUAL : ACQUIRE_GREATER;
        uint32_t operation = mode == ACQUIRE_EQUAL ? TRIGGER_EQUAL : TRIGGER_GREATER;
        uint32_t place = i < 6 ? SIZE_LIMIT - 5 + i : SIZE_LIMIT - 1 + i % 2;
        struct single single = i < 10 ? draw_long(draw, 0x1c, i < 6 ? TRIGGER_RELEASE : operation)
                                      : draw_retry(draw, draw_setting(draw), mode);

        single.channel.semaphore_address = 4 * (uint64_t)place + draw_below(draw, 4);
        single.lens.semaphores = SIZE_LIMIT;
        /* Words that the record doesn't give are 0. */
        if (i >= 6)
            single.channel.semaphore_sequence = single.channel.acquire_value = 0;
        put_single(vectors, &single);
    }
}

/* ---- The pusher, case by case ---- */

/* W11, W12, S16, S18, S19, S20, S21, S22, S23, S27, S28: each form at each setting, in a subroutine or not;
 * each third word is one bit off. */
static void put_commands(struct vectors *vectors)
{
    struct draw *draw = &vectors->draw;

    for (uint32_t i = 0; i < STATES * PATTERNS * 2 * 2; i++) {
        struct state state = state_at(i % STATES);
        uint32_t word = draw_form(draw, patterns[i / STATES % PATTERNS]);
        struct single single = draw_command(draw, state.setting, word);

        if (draw_once_in(draw, 3))
            set_word(&single, word ^ UINT32_C(1) << draw_below(draw, 32));
        single.channel.subroutine = i / STATES / PATTERNS % 2 == 1;
        single.channel.sli_active = state.is_active;
        put_single(vectors, &single);
    }
}

/* W20, W21, W22, W23, W24, S23, S28, S33: for each why that a setting has, words that are reserved for it.
 * LEVEL and SLI, which fewer settings have, are tried more often. */
static void put_reserved(struct vectors *vectors)
{
    static const unsigned times[] = {[WHY_FORM] = 1, [WHY_LEVEL] = 12, [WHY_MODE] = 2, [WHY_SLI] = 8};

    for (uint32_t i = 0; i < STATES * WHY_SLI; i++) {
        struct draw *draw = &vectors->draw;
        struct state state = state_at(i % STATES);
        uint32_t why = WHY_FORM + i / STATES;

        for (unsigned j = 0; j < times[why] && why_fits(state.setting, why); j++) {
            uint32_t word = draw_reserved(draw, state.setting, why);
            struct single single = draw_command(draw, state.setting, word);

            single.channel.subroutine = j % 2 == 1;
            single.channel.sli_active = state.is_active;
            put_single(vectors, &single);
        }
    }
}

/* S21, S22, S27, S28: call and return, inside a subroutine and outside of one, wherever there are any. */
static void put_calls(struct vectors *vectors)
{
    for (uint32_t i = 0; i < STATES * 2 * 2 * 2; i++) {
        struct draw *draw = &vectors->draw;
        struct setting setting = state_at(i % STATES).setting;
        uint32_t word = i / STATES % 2 == 0 ? 0x00020000 : 4 * draw_below(draw, 9) | 2;
        struct single single = draw_command(draw, setting, word);

        single.channel.subroutine = i / STATES / 2 % 2 == 1;
        if (setting.level >= 2 && setting.mode == MODE_NV04)
            put_single(vectors, &single);
    }
}

/* S17, S23: words that may be anything; every other command has count 0. */
static void put_any_commands(struct vectors *vectors)
{
    for (uint32_t i = 0; i < 160; i++) {
        struct setting setting = draw_setting(&vectors->draw);
        uint32_t word = draw_word(&vectors->draw);
        struct single single = draw_command(&vectors->draw, setting, i % 2 == 0 ? word : word & 0x4000fffc);

        put_single(vectors, &single);
    }
}

/* S19: each bit of the channel's mask, against itself, its neighbour and all others. */
static void put_conditionals(struct vectors *vectors)
{
    for (uint32_t i = 0; i < 12 * 3; i++) {
        struct setting setting = {3 + draw_below(&vectors->draw, 3), MODE_NV04, true};
        uint32_t bit = UINT32_C(1) << i / 3;
        uint32_t masks[] = {bit, bit << 1 & 0xfff, ~bit & 0xfff};
        struct single single = draw_command(&vectors->draw, setting, 0x00010000 | masks[i % 3] << 4);

        single.channel.setup.sli_mask = bit;
        single.channel.sli_active = i / 3 % 2 == 0;
        put_single(vectors, &single);
    }
}

/* S14, S15, R35: words where a count is awaited, in NV04-style too, whatever the count was. */
static void put_count_words(struct vectors *vectors)
{
    static const uint32_t words[] = {0, 1, 0x00ffffff, 0x01000000, 0xff000000, 0xff000001, UINT32_MAX};

    for (uint32_t i = 0; i < STATES * sizeof words / sizeof words[0]; i++) {
        struct state state = state_at(i % STATES);
        struct single single = draw_reading(&vectors->draw, state.setting);

        single.channel.count_awaited = true;
        single.channel.sli_active = state.is_active;
        set_word(&single, words[i / STATES]);
        put_single(vectors, &single);
    }
}

/* S25: the last parameter, the longest run, the largest method, increasing or not. */
static void put_run_ends(struct vectors *vectors)
{
    static const uint32_t counts[] = {1, 2, 0xffffff};
    static const uint32_t methods[] = {0x100, 0x1ff8, 0x1ffc};

    for (uint32_t i = 0; i < STATES * 3 * 2; i++) {
        struct state state = state_at(i % STATES);
        struct single single = draw_method(&vectors->draw, state.setting, methods[i / STATES % 3]);

        single.channel.count = counts[draw_below(&vectors->draw, 3)];
        single.channel.increasing = i / STATES / 3 == 0;
        single.channel.sli_active = state.is_active;
        put_single(vectors, &single);
    }
}

/* S9, S10, S11, S12: a read address and a limit around each other, in either mode, where the word is the last
 * lent or the one after it. */
static void put_limits(struct vectors *vectors)
{
    static const uint32_t differences[] = {0, 1, 3, 4, UINT32_MAX, UINT32_MAX - 3};

    for (uint32_t i = 0; i < STATES * 6 * 2; i++) {
        uint32_t place = 1 + draw_below(&vectors->draw, 5);
        struct state state = state_at(i % STATES);
        struct single single = draw_reading(&vectors->draw, state.setting);

        single.channel.get = 4 * place;
        single.channel.put = 4 * (place + 1 + draw_below(&vectors->draw, 9));
        single.lens.words = place + 1 - i / STATES / 6;
        single.channel.setup.dma_limit = 4 * place + differences[i / STATES % 6];
        put_single(vectors, &single);
    }
}

/* S10, S28: limits far below the read address, 0 as often as not, where the word is the last lent or the one
 * after it. Only IB mode reads on. */
static void put_low_limits(struct vectors *vectors)
{
    static const uint32_t places[] = {1, 64, 1023, 16383};

    for (uint32_t i = 0; i < STATES * 4 * 2; i++) {
        uint32_t place = places[i / STATES % 4];
        uint32_t below = draw_below(&vectors->draw, 4 * place);
        struct single single = draw_reading(&vectors->draw, state_at(i % STATES).setting);

        single.channel.get = 4 * place;
        single.channel.put = 4 * draw_below(&vectors->draw, place);
        single.lens.words = place + 1 - i / STATES / 4;
        single.channel.setup.dma_limit = draw_once_in(&vectors->draw, 2) ? 0 : below;
        put_single(vectors, &single);
    }
}

/* S10, S11, S12, S17, S28: the limit that the rules work through, in either mode: at the last of two lent
 * words and at the place after it, with the least limit and the largest. All else is at rest. */
static void put_worked_limits(struct vectors *vectors)
{
    for (uint32_t i = 0; i < 2 * 2 * 2 * 2; i++) {
        struct setup setup = {{4 + i % 2, i / 2 % 2 == 0 ? MODE_NV04 : MODE_IB, false}, 0, 0, 0};
        struct single single = {.lens = {.words = 2}};

        setup.dma_limit = i / 4 % 2 == 0 ? 0 : UINT32_MAX;
        model_open(&single.channel, setup, NULL, 0);
        single.channel.get = i / 8 == 0 ? 4 : 8;
        single.channel.put = 12;
        put_single(vectors, &single);
    }
}

/* S9, S10: addresses past any memory, whatever the limit. Cut to 32 bits, or with a place cut to these or to
 * the 20 that a memory has, most would be at one of the three words that are lent. NV04-style has the first
 * ones. */
static void put_far_words(struct vectors *vectors)
{
    static const uint64_t addresses[] = {
        0x400004,    0x40000004,   0x80000000,   0xfffffffc,   0x100000000,
        0x100000004, 0x5500000008, 0x8000000008, 0xff00000004, 0x3fffffffc,
        0x400000000, 0x400000004,  0x7400000008, 0xfc00000004, 0xfffffffffc,
    };
    static const uint32_t limits[] = {0, 4, 0x80000000, UINT32_MAX};

    for (uint32_t i = 0; i < 2 * 4 * sizeof addresses / sizeof addresses[0]; i++) {
        uint64_t address = addresses[i / 8];
        uint32_t level = 4 + draw_below(&vectors->draw, 2);
        struct setting setting = {level, i % 2 == 0 ? MODE_IB : MODE_NV04, false};
        struct single single = draw_reading(&vectors->draw, setting);

        if (setting.mode == MODE_NV04 && address > UINT32_MAX)
            continue;
        single.channel.get = address;
        single.channel.put = draw_once_in(&vectors->draw, 2) ? 0 : address - 4;
        single.channel.setup.dma_limit = limits[i / 2 % 4];
        single.lens.words = 3;
        put_single(vectors, &single);
    }
}

/* ---- Entries ---- */

/* E1, E4: an entry whose address and size are at their ends as often as not, with any flags. */
static uint64_t draw_entry(struct draw *draw)
{
    uint64_t address = draw_any_number(draw);
    uint64_t high = draw_any_number(draw) >> 24;
    uint64_t size = draw_once_in(draw, 5) ? 0 : draw_any_number(draw) >> 10;
    uint64_t flags = draw_below(draw, 4);

    return size << 42 | flags << 40 | high << 32 | address;
}

/* A channel that is about to read an entry, given and lent; the index is at times the ring's last. */
static struct single draw_entry_single(struct draw *draw, uint32_t order)
{
    struct setting setting = draw_setting_at(draw, 4 + draw_below(draw, 2));
    struct single single;
    struct channel *channel = &single.channel;

    setting.mode = MODE_IB;
    single = (struct single){.channel = draw_channel(draw, setting)};
    channel->put = channel->get;
    channel->setup.ib_order = order;
    channel->ib_get = draw_below(draw, order < 2 ? UINT32_C(1) << order : 4);
    channel->ib_put = (channel->ib_get + 1) % (UINT32_C(1) << order);
    single.memory.entry_count = channel->ib_get + 1;
    single.lens.entries = single.memory.entry_count;
    single.memory.entries[channel->ib_get] = draw_entry(draw);
    return single;
}

/* E1, E2, E3, E4, E5, E6, E7, S7: entries of rings of every order. */
static void put_entries(struct vectors *vectors)
{
    for (uint32_t i = 0; i < 13 * 20; i++) {
        struct single single = draw_entry_single(&vectors->draw, i % 13);

        /* One in ten has too few entries. */
        single.lens.entries -= i / 13 < 2;
        put_single(vectors, &single);
    }
}

/* E2, E3: indices around the end of the lent entries and of the ring. */
static void put_far_entries(struct vectors *vectors)
{
    for (uint32_t i = 0; i < 13 * 3; i++) {
        uint32_t order = i % 13;
        uint32_t places = UINT32_C(1) << order;
        struct single single = draw_entry_single(&vectors->draw, order);

        single.channel.ib_get = places - 1;
        single.channel.ib_put = places / 2;
        if (order < 3) {
            single.memory.entry_count = places;
            single.lens.entries = places - i / 26;
            single.memory.entries[places - 1] = draw_entry(&vectors->draw);
        }
        put_single(vectors, &single);
    }
}

/* ---- No word, no entry ---- */

/* S5, P16, P21, R35: an old retry at every level, whatever is bound or valid, in either mode; at the last
 * word and past it. */
static void put_retries(struct vectors *vectors)
{
    for (uint32_t i = 0; i < STATES * 14; i++) {
        struct state state = state_at(i % STATES);
        struct single single = draw_reading(&vectors->draw, state.setting);

        give_semaphores(&vectors->draw, &single);
        single.channel.acquire_active = true;
        single.channel.acquire_mode = ACQUIRE_OLD;
        single.channel.acquire_value = draw_below(&vectors->draw, 3);
        if (i / STATES == 13)
            single.channel.semaphore_offset = draw_any_number(&vectors->draw);
        put_single(vectors, &single);
    }
}

/* S4, S26, P23: stopped by either half or both, with each error, though there is a word, an entry or an
 * acquire. */
static void put_stopped(struct vectors *vectors)
{
    for (uint32_t i = 1; i < 7 * 7 * 3; i++) {
        uint32_t method = i % 2 == 0 ? 0x6c : 0x1c;
        struct single single = draw_method(&vectors->draw, draw_setting(&vectors->draw), method);

        if (i % 49 == 0)
            continue;
        set_pusher_error(&vectors->draw, &single.channel, i % 7);
        single.channel.puller_error = i / 7 % 7;
        single.channel.acquire_active = i / 49 == 1;
        if (i / 49 == 2)
            single.channel.put = single.channel.get;
        put_single(vectors, &single);
    }
}

/* R35, S4, S33: stopped at a reserved word with each why at each setting, be it one that no word has there,
 * though there is such a word; beside an error of the puller as often as not. */
static void put_stopped_whys(struct vectors *vectors)
{
    for (uint32_t i = 0; i < STATES * WHY_SLI; i++) {
        struct draw *draw = &vectors->draw;
        struct setting setting = state_at(i % STATES).setting;
        uint32_t word = draw_reserved(draw, setting, draw_why(draw, setting));
        struct single single = draw_command(draw, setting, word);

        single.channel.pusher_error = PUSHER_RESERVED_CMD;
        single.channel.pusher_why = WHY_FORM + i / STATES;
        if (draw_once_in(draw, 2))
            single.channel.puller_error = 1 + draw_below(draw, 6);
        put_single(vectors, &single);
    }
}

/* S8: nothing to read, in NV04-style, and in IB mode with both indices equal. */
static void put_idle(struct vectors *vectors)
{
    for (uint32_t i = 0; i < STATES * 5; i++) {
        struct single single = {.channel = draw_channel(&vectors->draw, state_at(i % STATES).setting)};

        single.channel.put = single.channel.get;
        single.channel.ib_put = single.channel.ib_get;
        single.lens.words = draw_below(&vectors->draw, 4);
        put_single(vectors, &single);
    }
}

/* S3, S13: anything that is well-formed. */
static void put_any(struct vectors *vectors)
{
    for (uint32_t i = 0; i < 420; i++) {
        struct draw *draw = &vectors->draw;
        struct single single = {.channel = draw_channel(draw, draw_setting(draw))};

        if (draw_once_in(draw, 2))
            single.channel.get = 4 * draw_below(draw, 2);
        if (draw_once_in(draw, 2))
            single.channel.setup.dma_limit = UINT32_MAX;
        single.channel.acquire_active = draw_once_in(draw, 10);
        single.memory.word_count = 2;
        single.memory.words[0] = draw_word(draw);
        single.memory.words[1] = draw_below(draw, 9);
        single.lens.words = draw_below(draw, 4);
        give_objects(draw, &single);
        if (draw_once_in(draw, 2))
            give_semaphores(draw, &single);
        else if (draw_once_in(draw, 2))
            give_long(draw, &single);
        put_single(vectors, &single);
    }
}

/* ---- Refusals ---- */

/* A step that would do something, with an ill-formed channel in its place; a release is about to be made, so
 * that it is seen not to be. */
static struct single draw_ill_formed(struct draw *draw, unsigned breach, unsigned which)
{
    struct single single = {.channel = draw_breach(draw, breach, which)};

    single.memory.word_count = 1;
    single.memory.words[0] = draw_below(draw, 3);
    single.lens.words = 1;
    give_semaphores(draw, &single);
    if (draw_once_in(draw, 4))
        set_pusher_error(draw, &single.channel, 1 + draw_below(draw, 6));
    if (draw_once_in(draw, 4))
        single.channel.acquire_active = true;
    return single;
}

/* R13, R31, R32, R33, R34: every way to be ill-formed, with the nearest number that is good, and two at
 * once. */
static void put_ill_formed(struct vectors *vectors)
{
    struct draw *draw = &vectors->draw;

    for (unsigned breach = 0; breach < breach_count(); breach++)
        for (unsigned i = 0; i < 2 * BREACHES; i++) {
            struct single single = draw_ill_formed(draw, breach, i % BREACHES);

            if (put_single(vectors, &single) == REFUSAL_STATE)
                count_one(vectors, STATE, breach);
        }
    /* Two at once. */
    for (unsigned i = 0; i < 3 * breach_count(); i++) {
        struct single single = draw_ill_formed(draw, i / 3, BREACH_NEAR);

        add_breach(&single.channel, draw_below(draw, breach_count()));
        put_single(vectors, &single);
    }
}

/* A step that would write a semaphore word, at a level that has it. */
static struct single draw_release(struct draw *draw)
{
    struct single single = draw_method(draw, draw_setting_at(draw, 2 + draw_below(draw, 4)), 0x6c);

    single.channel.dma_semaphore = 1;
    single.channel.offset_valid = true;
    return single;
}

/* P29: the same at level 5, where half of the time it is the four words of a long semaphore. */
static struct single draw_any_release(struct draw *draw)
{
    struct single single = draw_release(draw);

    if (draw_once_in(draw, 2))
        return single;
    single = draw_parameter(draw, draw_setting_at(draw, 5), 0x1c, TRIGGER_RELEASE);
    give_long(draw, &single);
    return single;
}

/* R5, R31: table lengths around those that are refused, whatever the step would do. */
static void put_tables(struct vectors *vectors)
{
    static const uint32_t lents[] = {1, 2, 3, 4, 5, 4092, 4095, 4096, 4097, 4098, 4099, 4100, 4104};

    for (uint32_t i = 0; i < 8 * sizeof lents / sizeof lents[0]; i++) {
        struct single single = draw_any_release(&vectors->draw);

        single.lens.table = lents[i / 8];
        if (i % 8 == 0)
            single.channel.puller_error = 1 + draw_below(&vectors->draw, 6);
        if (i % 8 == 1)
            single.channel.acquire_active = true;
        if (i % 8 == 2)
            single.channel.put = single.channel.get;
        put_single(vectors, &single);
    }
}

/* R21, R27: each of the three wrong or not; of the sizes either, one at a time, since the program that runs
 * the vectors has room for one such memory. Few, as it is large. */
static void put_orders(struct vectors *vectors)
{
    for (uint32_t i = 0; i < 2 * 2 * 2 * 2; i++) {
        struct draw *draw = &vectors->draw;
        struct single single = i & 8 ? draw_ill_formed(draw, draw_below(draw, breach_count()), BREACH_NEAR)
                                     : draw_any_release(draw);

        if (i & 1)
            single.lens.words = i & 2 ? SIZE_LIMIT + 1 : SIZE_LIMIT;
        else
            single.lens.semaphores = i & 2 ? SIZE_LIMIT + 1 : SIZE_LIMIT;
        single.lens.table = i & 4 ? 4097 : 0;
        put_single(vectors, &single);
    }
}

/* R8, R31: SIZE whatever the step would do, stopped, a retry, nothing. */
static void put_sizes(struct vectors *vectors)
{
    for (uint32_t i = 0; i < 2 * 3; i++) {
        struct single single = draw_any_release(&vectors->draw);

        if (i % 2 == 0)
            single.lens.words = SIZE_LIMIT + 1;
        else
            single.lens.semaphores = SIZE_LIMIT + 1;
        single.channel.pusher_error = i / 2 == 0 ? PUSHER_CALL : 0;
        single.channel.acquire_active = i / 2 == 1;
        if (i / 2 == 2)
            single.channel.put = single.channel.get;
        put_single(vectors, &single);
    }
}

/* R8, S10: the last word of the largest pushbuffer, and one past it, in IB mode with the limit 0. */
static void put_last_words(struct vectors *vectors)
{
    for (uint32_t i = 0; i < 4; i++) {
        struct setting setting = {4 + i % 2, i / 2 == 0 ? MODE_NV04 : MODE_IB, false};
        struct single single = draw_reading(&vectors->draw, setting);

        single.channel.get = 4 * (SIZE_LIMIT - 1 + i % 2);
        single.channel.put = 0;
        single.channel.setup.dma_limit = i / 2 == 0 ? UINT32_MAX : 0;
        single.lens.words = SIZE_LIMIT;
        put_single(vectors, &single);
    }
}

/* R8, P14: the last word of the largest semaphore memory, and one past it, released, acquired, tried
 * again. */
static void put_last_semaphores(struct vectors *vectors)
{
    for (uint32_t i = 0; i < 6; i++) {
        struct single single = draw_release(&vectors->draw);

        single.channel.semaphore_offset = i % 2 == 0 ? 4 * SIZE_LIMIT - 1 : 4 * SIZE_LIMIT;
        single.lens.semaphores = SIZE_LIMIT;
        if (i / 2 == 1)
            single.channel.method = 0x68 / 4;
        single.channel.acquire_active = i / 2 == 2;
        single.channel.acquire_mode = ACQUIRE_OLD;
        single.channel.acquire_value = 0;
        put_single(vectors, &single);
    }
}

void put_singles(struct vectors *vectors)
{
    put_methods(vectors);
    put_more_methods(vectors);
    put_engines(vectors);
    put_forwards(vectors);
    put_lookups(vectors);
    put_far_lookups(vectors);
    put_classes(vectors);
    put_offsets(vectors);
    put_semaphores(vectors);
    put_far_releases(vectors);
    put_operations(vectors);
    put_operations_below(vectors);
    put_addresses(vectors);
    put_long_ends(vectors);
    put_far_long_releases(vectors);
    put_far_addresses(vectors);
    put_long_acquires(vectors);
    put_long_retries(vectors);
    put_retry_modes(vectors);
    put_unlooked(vectors);
    put_commands(vectors);
    put_reserved(vectors);
    put_calls(vectors);
    put_any_commands(vectors);
    put_conditionals(vectors);
    put_count_words(vectors);
    put_run_ends(vectors);
    put_limits(vectors);
    put_low_limits(vectors);
    put_worked_limits(vectors);
    put_far_words(vectors);
    put_entries(vectors);
    put_far_entries(vectors);
    put_retries(vectors);
    put_stopped(vectors);
    put_stopped_whys(vectors);
    put_idle(vectors);
    put_any(vectors);
    put_ill_formed(vectors);
    put_tables(vectors);
    put_orders(vectors);
    put_sizes(vectors);
    put_last_words(vectors);
    put_last_semaphores(vectors);
    put_last_longs(vectors);
}

/* The RUN records: a channel is opened, and the host sets put, stores semaphore words and lets it step. */
#include "channel_vectors.h"
#include "pattern.h"

enum { OP_STORE = 2, MOST_STEPS = 60 };

/* What is lent too short from a step on. */
enum { HUNGER_NONE, HUNGER_WORDS, HUNGER_TABLE, HUNGER_SEMAPHORES, HUNGERS };

/* A run under way. */
struct run {
    struct vectors *vectors;
    struct draw *draw;
    struct memory memory;
    struct channel channel;
    struct buffer operations;
    uint32_t operation_count;
    uint32_t step_count;
    uint32_t last_step;
    uint32_t hunger;
    uint32_t hunger_step;
};

static bool is_ib(const struct run *run)
{
    return run->channel.setup.setting.mode == MODE_IB;
}

static uint32_t least(uint64_t a, uint32_t b)
{
    return a < b ? (uint32_t)a : b;
}

/* ---- Operations ---- */

/* A place for the header of one more operation. */
static size_t start_operation(struct run *run)
{
    run->operation_count++;
    return run->operations.count++;
}

static void run_put(struct run *run, uint32_t put)
{
    size_t header = start_operation(run);

    add(&run->operations, put);
    count_one(run->vectors, RUN_PUT, add_put(&run->operations, header, &run->channel, put));
}

static void run_store(struct run *run, uint32_t place, uint32_t value)
{
    run->operations.words[start_operation(run)] = OP_STORE;
    add(&run->operations, place);
    add(&run->operations, value);
    run->memory.semaphores[place] = value;
}

static struct answer run_step(struct run *run, struct lens lens)
{
    struct memory *memory = &run->memory;
    uint64_t clock = draw_clock(run->draw);
    struct lent lent = {memory->words, lens.words,         memory->entries, lens.entries, memory->table,
                        lens.table,    memory->semaphores, lens.semaphores, clock};
    struct channel before = run->channel;
    size_t header = start_operation(run);
    struct answer answer;

    run->step_count++;
    add(&run->operations, lens.words | lens.entries << 8 | lens.table << 16 | lens.semaphores << 24);
    add_clock(&run->operations, clock);
    answer = add_step(run->vectors, &run->operations, header, &run->channel, &lent);
    count_one(run->vectors, STEP, answer.kind);
    count_read(run->vectors, RUN_READ, &before, &lent, answer);
    count_why(run->vectors, RUN_WHY, &run->channel, answer);
    if (is_long_step(&before, &run->channel, answer))
        count_one(run->vectors, LONG_STEP, answer.kind);
    if (answer.refusal != REFUSAL_NONE)
        count_one(run->vectors, REFUSED, answer.refusal);
    return answer;
}

/* ---- What is lent ---- */

static struct lens all(const struct run *run)
{
    const struct memory *memory = &run->memory;

    return (struct lens){memory->word_count, memory->entry_count, memory->table_count,
                         memory->semaphore_count};
}

/* P16, P31: the place of the word that an active acquire waits for. */
static uint64_t awaited_place(const struct channel *channel)
{
    return channel->acquire_mode == ACQUIRE_OLD ? channel->semaphore_offset / 4
                                                : channel->semaphore_address / 4;
}

/* P29, P30: how many semaphore words the operation needs that the next word is. */
static uint32_t trigger_words(const struct run *run)
{
    uint64_t place = run->channel.get / 4;
    bool is_release = place < run->memory.word_count && run->memory.words[place] == TRIGGER_RELEASE;

    return is_release ? LONG_WORDS : 1;
}

/* P14, P16, P29, P30, P31: how many semaphore words the step can read or write. */
static uint64_t semaphores_needed(const struct run *run)
{
    const struct channel *channel = &run->channel;

    if (channel->acquire_active)
        return awaited_place(channel) + 1;
    if (4 * channel->method == 0x1c)
        return channel->semaphore_address / 4 + trigger_words(run);
    return channel->semaphore_offset / 4 + 1;
}

/* Not one word more than the step can read of each, or `short_by` of them fewer. */
static struct lens just_enough(const struct run *run, uint32_t short_by)
{
    const struct channel *channel = &run->channel;
    struct lens lens = all(run);

    lens.words = least(channel->get / 4 + 1 - short_by, lens.words);
    lens.entries = least(channel->ib_get + 1 - short_by, lens.entries);
    lens.semaphores = least(semaphores_needed(run) - short_by, lens.semaphores);
    return lens;
}

/* S10, E2, P2, P14, P29, P30, P31: what the end of a run lacks. */
static struct lens hungry(const struct run *run)
{
    struct lens lens = all(run);
    struct lens less = just_enough(run, 1);

    switch (run->hunger) {
    case HUNGER_WORDS:
        lens.words = less.words;
        lens.entries = less.entries;
        break;
    case HUNGER_TABLE:
        lens.table = 0;
        break;
    case HUNGER_SEMAPHORES:
        lens.semaphores = less.semaphores;
        break;
    default:
        break;
    }
    return lens;
}

/* R5, R27: mostly all; now and then just enough, fewer semaphores or a part of the table, a part entry
 * too. */
static struct lens draw_lens(struct run *run)
{
    struct lens lens = all(run);
    uint32_t choice = draw_below(run->draw, 60);

    if (run->step_count >= run->hunger_step)
        return hungry(run);
    if (choice < 8)
        return just_enough(run, 0);
    if (choice == 8)
        lens.table = draw_below(run->draw, lens.table + 1);
    if (choice == 9)
        lens.semaphores = draw_below(run->draw, lens.semaphores + 1);
    return lens;
}

/* ---- The host ---- */

/* S2, S14: another put, so that there is something to read, be it in the middle of a run; false where there
 * is nothing left. */
static bool put_further(struct run *run)
{
    uint32_t places = UINT32_C(1) << run->channel.setup.ib_order;
    uint32_t place = least(run->channel.get / 4, run->memory.word_count);
    uint32_t left = run->memory.word_count - place;

    if (is_ib(run)) {
        if (places == 1)
            return false;
        run_put(run, (run->channel.ib_get + 1 + draw_below(run->draw, places - 1)) % places);
        return true;
    }
    if (place != 0 && left == 0)
        return false;
    /* Without words, the first of them is waited for. */
    if (left == 0)
        left = 1;
    run_put(run, 4 * (draw_once_in(run->draw, 3) ? place + 1 + draw_below(run->draw, left) : place + left));
    return true;
}

/* R7, R31: a put that is refused. */
static void put_wrong(struct run *run)
{
    uint32_t more = draw_below(run->draw, 3);
    uint32_t places = UINT32_C(1) << run->channel.setup.ib_order;

    run_put(run, is_ib(run) ? places + more : 4 * more + 1 + more);
}

/* P16, P30, P31: the word that an acquire waits for, or one that lies on either side of it, far or near. */
static uint32_t draw_awaited(struct run *run)
{
    static const uint32_t differences[] = {1, 0x7fffffff, 0x80000000, UINT32_MAX};
    uint32_t value = run->channel.acquire_value;

    if (run->channel.acquire_mode == ACQUIRE_OLD || draw_once_in(run->draw, 2))
        return value;
    return value + draw_among(run->draw, differences, sizeof differences / sizeof differences[0]);
}

/* P16, P31: stores what an acquire waits for, half of the time; now and then anything. */
static void store(struct run *run)
{
    uint64_t place = awaited_place(&run->channel);
    uint32_t count = run->memory.semaphore_count;

    if (count == 0)
        return;
    if (run->channel.acquire_active && place < count && draw_once_in(run->draw, 2)) {
        run_store(run, (uint32_t)place, draw_awaited(run));
    } else if (draw_once_in(run->draw, 40)) {
        uint32_t any = draw_below(run->draw, count);

        run_store(run, any, draw_below(run->draw, 3));
    }
}

static bool is_idle(const struct run *run)
{
    return run->channel.get == run->channel.put && run->channel.ib_get == run->channel.ib_put;
}

static void host_acts(struct run *run)
{
    store(run);
    if (is_idle(run) && !draw_once_in(run->draw, 2))
        put_further(run);
    if (draw_once_in(run->draw, 50))
        put_wrong(run);
    else if (draw_once_in(run->draw, 50))
        put_further(run);
}

/* S2, S4, S8: after the last step that does something, some that don't, and put, which a stopped channel
 * takes too. */
static void run_out(struct run *run)
{
    if (draw_once_in(run->draw, 3))
        run_step(run, all(run));
    if (draw_once_in(run->draw, 4)) {
        put_further(run);
        run_step(run, all(run));
    }
}

static bool is_stopped(const struct run *run)
{
    return run->channel.pusher_error != 0 || run->channel.puller_error != 0;
}

static void drive(struct run *run)
{
    bool goes_on = draw_once_in(run->draw, 20) || put_further(run);

    while (goes_on && run->step_count < run->last_step) {
        struct answer answer;

        host_acts(run);
        answer = run_step(run, draw_lens(run));
        goes_on = !is_stopped(run) && (answer.kind != KIND_IDLE || put_further(run));
    }
    if (run->step_count + 2 <= MOST_STEPS)
        run_out(run);
}

/* ---- Records ---- */

/* Opens the channel and drives it. The record holds the memory as it was before. */
static void put_run(struct vectors *vectors, const struct setup *setup, const struct memory *memory,
                    uint32_t steps)
{
    static struct buffer record;
    static struct run run;
    uint32_t head[] = {setup->setting.level, setup->setting.mode, setup->ib_order,
                       setup->setting.sli,   setup->sli_mask,     setup->dma_limit};
    uint32_t refusal;

    run = (struct run){.vectors = vectors, .draw = &vectors->draw, .memory = *memory, .last_step = steps};
    run.hunger = draw_once_in(run.draw, 2) ? HUNGER_NONE : draw_below(run.draw, HUNGERS);
    run.hunger_step = steps - draw_below(run.draw, 6);
    record.count = 0;
    add_words(&record, head, sizeof head / sizeof head[0]);
    add_counted(&record, memory->table, memory->table_count);
    add_memory(&record, memory);
    refusal = model_open(&run.channel, *setup, memory->table, memory->table_count).refusal;
    drive(&run);
    add(&record, run.operation_count);
    add_words(&record, run.operations.words, run.operations.count);
    put_record(vectors, RUN, record.words, record.count, refusal);
}

/* A set-up that isn't refused; IB mode, and the level that has long semaphores, more often than by chance. */
static struct setup draw_setup(struct draw *draw)
{
    struct setup setup = {.setting = draw_setting(draw), .dma_limit = UINT32_MAX};

    if (draw_once_in(draw, 8))
        setup.setting = (struct setting){4 + draw_below(draw, 2), MODE_IB, setup.setting.sli};
    else if (draw_once_in(draw, 6))
        setup.setting.level = 5;
    setup.ib_order = draw_once_in(draw, 12) ? draw_below(draw, 13) : 2 + draw_below(draw, 2);
    setup.sli_mask = draw_any_number(draw) >> 20;
    return setup;
}

/* S10: a limit at one of the last words, a byte before or behind it; in IB mode, where a run goes on past it,
 * 0 as often as not. */
static uint32_t draw_limit(struct draw *draw, struct setting setting, const struct memory *memory)
{
    uint32_t last = memory->word_count / 2 + draw_below(draw, memory->word_count / 2 + 1);

    if (setting.mode == MODE_IB && draw_once_in(draw, 2))
        return 0;
    return 4 * last + draw_below(draw, 5) - 1;
}

/* Takes a pool away, or all of them. */
static void take_away(struct draw *draw, struct memory *memory)
{
    uint32_t choice = draw_below(draw, 5);

    if (choice == 0 || choice == 4)
        memory->word_count = 0;
    if (choice == 1 || choice == 4)
        memory->entry_count = 0;
    if (choice == 2 || choice == 4)
        memory->table_count = 0;
    if (choice == 3 || choice == 4)
        memory->semaphore_count = 0;
}

/* S3, S13, S14, S26, S30, S31, S32, P3, P23: a run of any set-up, of which the record has every step: one
 * move of the pusher at most, the event of what was read, and all that changes. */
static void put_any_run(struct vectors *vectors)
{
    struct draw *draw = &vectors->draw;
    struct setup setup = draw_setup(draw);
    unsigned ending = draw_ending(draw, setup.setting);
    uint32_t size = 8 + draw_below(draw, 24);
    struct memory memory;

    compose(draw, &setup, ending, size, &memory);
    /* S10: few in NV04-style, as they end runs. */
    if (draw_once_in(draw, setup.setting.mode == MODE_IB ? 2 : 16))
        setup.dma_limit = draw_limit(draw, setup.setting, &memory);
    if (draw_once_in(draw, 50))
        take_away(draw, &memory);
    put_run(vectors, &setup, &memory, 24 + draw_below(draw, MOST_STEPS - 23));
}

/* S23, S33: a short run that ends with a word that is reserved for a why. */
static void put_reserved_run(struct vectors *vectors, struct setting setting, uint32_t why)
{
    struct draw *draw = &vectors->draw;
    struct setup setup = {setting, 2, UINT32_MAX, draw_any_number(draw) >> 20};
    struct memory memory;

    compose(draw, &setup, END_RESERVED, 3, &memory);
    memory.words[memory.word_count - 1] = draw_reserved(draw, setting, why);
    put_run(vectors, &setup, &memory, 32);
}

/* W20, W21, W22, W23, W24: such runs at every setting, for each why that it has. */
static void put_reserved_runs(struct vectors *vectors)
{
    for (uint32_t i = 0; i < 24 * WHY_SLI; i++) {
        struct setting setting = {i % 24 / 4, i / 2 % 2, i % 2 == 1};
        uint32_t why = WHY_FORM + i / 24;

        for (unsigned j = 0; j < 4; j++)
            if (model_setting_refusal(setting) == REFUSAL_NONE && why_fits(setting, why))
                put_reserved_run(vectors, setting, why);
    }
}

/* R1, R2, R3, R4, R5, R6, R10: makes an opening be refused, in one of the seven ways. */
static void spoil(struct setup *setup, struct memory *memory, unsigned way)
{
    switch (way) {
    case 0:
        setup->setting.level = 6;
        break;
    case 1:
        setup->setting.mode = 2;
        break;
    case 2:
        setup->setting = (struct setting){4, MODE_IB, false};
        setup->ib_order = 13;
        break;
    case 3:
        setup->setting = (struct setting){2, MODE_NV04, true};
        break;
    case 4:
        setup->sli_mask = 4096;
        break;
    case 5:
        memory->table_count--;
        break;
    default:
        memory->table[ENTRY_WORDS] = memory->table[0];
        break;
    }
}

/* R30, S10: the blank channel, whose limit lets it read the first word alone. */
static void put_blank_run(struct vectors *vectors, unsigned way)
{
    struct draw *draw = &vectors->draw;
    struct setup setup = draw_setup(draw);
    struct memory memory;

    setup.setting.mode = MODE_NV04;
    compose(draw, &setup, END_PLAIN, 4, &memory);
    memory.words[0] = draw_once_in(draw, 2) ? UINT32_C(0x20000000) : memory.words[0];
    spoil(&setup, &memory, way);
    put_run(vectors, &setup, &memory, 6);
}

void put_runs(struct vectors *vectors)
{
    for (unsigned i = 0; i < 2060; i++)
        put_any_run(vectors);
    put_reserved_runs(vectors);
    for (unsigned i = 0; i < 42; i++)
        put_blank_run(vectors, i % 7);
}

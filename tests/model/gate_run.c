#include "gate_run.h"

#include "channel.h"

enum { TABLE_ENTRIES = 4, SEMAPHORES = 4 };

/* How a word was read, a bit each. */
enum { READ_AS_COMMAND = 1, READ_AS_PARAMETER = 2, READ_AS_BOTH = 3 };

/* A run under way. */
struct run {
    struct draw *draw;
    const struct submission *submission;
    struct channel channel;
    uint32_t words[SIZE_LIMIT];
    uint8_t roles[SIZE_LIMIT];
    size_t word_count;
    /* Whether the last word that was read is a parameter, and its method's number. */
    bool is_in_run;
    uint32_t method;
    uint32_t table[ENTRY_WORDS * TABLE_ENTRIES];
    uint32_t semaphores[SEMAPHORES];
    uint64_t clock;
    /* Whether what stops or holds the puller is taken away, so that the pusher goes on. */
    bool is_let_go;
};

/* W17: the channel's words are the submission's bytes. */
static void set_words(struct run *run)
{
    const uint8_t *bytes = run->submission->words;

    run->word_count = run->submission->words_length / 4;
    for (size_t i = 0; i < run->word_count; i++) {
        run->words[i] = 0;
        for (unsigned j = 0; j < 4; j++)
            run->words[i] |= (uint32_t)bytes[4 * i + j] << 8 * j;
        run->roles[i] = 0;
    }
}

/* A number that one of the words may have as a parameter. */
static uint32_t draw_handle(struct run *run)
{
    uint32_t any = draw_number(run->draw);

    return run->word_count == 0 ? any : run->words[any % run->word_count];
}

/* G33: the table, the semaphore words and the clock, which may be others at each step. */
static void draw_memory(struct run *run)
{
    uint64_t high = draw_number(run->draw);

    for (unsigned i = 0; i < TABLE_ENTRIES; i++) {
        uint32_t *entry = run->table + ENTRY_WORDS * i;

        entry[0] = draw_handle(run);
        entry[1] = draw_below(run->draw, 32);
        entry[2] = draw_number(run->draw);
        entry[3] = draw_once_in(run->draw, 2) ? 0x30002 : draw_number(run->draw);
    }
    for (unsigned i = 0; i < SEMAPHORES; i++)
        run->semaphores[i] = draw_handle(run);
    run->clock = high << 32 | draw_handle(run);
}

/* G33: any mask, and put at the end. The limit is the last word's address or above; without words it may be
 * anything. */
static uint32_t open_channel(struct run *run)
{
    struct setting setting = {run->submission->level, MODE_NV04, run->submission->sli != 0};
    uint32_t end = 4 * (uint32_t)run->word_count;
    uint32_t limits[] = {end - 4, end - 1, end, UINT32_MAX};
    struct setup setup = {setting, 0, 0, draw_below(run->draw, 4096)};
    uint32_t refusal;

    setup.dma_limit = draw_among(run->draw, limits, 4);
    refusal = model_open(&run->channel, setup, NULL, 0).refusal;
    return refusal != REFUSAL_NONE ? refusal : model_set_put(&run->channel, end);
}

/* Whether a step will read a word. */
static bool is_reading(const struct channel *channel)
{
    return channel->pusher_error == 0 && channel->puller_error == 0 && !channel->acquire_active &&
           channel->get != channel->put;
}

static bool is_permitted(const struct run *run, const struct channel *channel)
{
    uint32_t byte = 256 * channel->subchannel + channel->method / 8;

    return (run->submission->permit[byte] >> channel->method % 8 & 1) != 0;
}

/* G39: whether a parameter about to be read goes to another method than the one behind that of the parameter
 * before it, in an increasing run. */
static bool is_out_of_turn(const struct run *run)
{
    const struct channel *channel = &run->channel;

    return run->is_in_run && channel->count != 0 && channel->increasing &&
           channel->method != run->method + 1;
}

/* G35, G36, G39: what the word about to be read breaks. NV04-style has no long form, so that it is a
 * parameter or a command, by the count alone. */
static const char *reading_breach(struct run *run)
{
    const struct channel *channel = &run->channel;
    uint8_t *role;

    if (channel->get / 4 >= run->word_count)
        return "a word beyond the last is read";
    role = &run->roles[channel->get / 4];
    *role |= channel->count != 0 ? READ_AS_PARAMETER : READ_AS_COMMAND;
    if (*role == READ_AS_BOTH)
        return "a word is read both as a command and as a parameter";
    if (channel->count != 0 && !is_permitted(run, channel))
        return "a method that is not permitted is submitted";
    if (is_out_of_turn(run))
        return "an increasing run does not go to the next method";
    run->is_in_run = channel->count != 0;
    run->method = channel->method;
    return NULL;
}

/* G34, G37: what the channel breaks after it was opened or took a step. */
static const char *state_breach(const struct channel *channel, uint32_t refusal)
{
    if (refusal != REFUSAL_NONE)
        return "the channel refuses";
    if (channel->pusher_error != 0)
        return "the pusher stops with an error";
    if (channel->get != channel->put)
        return NULL;
    if (channel->count != 0 || channel->count_awaited)
        return "put is met with a count not used up";
    if (channel->subroutine)
        return "put is met inside a subroutine";
    return NULL;
}

static const char *step_breach(struct run *run)
{
    struct lent lent = {.words = run->words,
                        .word_count = run->word_count,
                        .table = run->table,
                        .table_count = ENTRY_WORDS * TABLE_ENTRIES,
                        .semaphores = run->semaphores,
                        .semaphore_count = SEMAPHORES,
                        .clock = run->clock};
    const char *breach = is_reading(&run->channel) ? reading_breach(run) : NULL;

    if (breach != NULL)
        return breach;
    breach = state_breach(&run->channel, model_step(&run->channel, &lent).refusal);
    if (run->is_let_go) {
        run->channel.puller_error = 0;
        run->channel.acquire_active = false;
    }
    return breach;
}

/* Whether all further steps do the same. */
static bool is_over(const struct channel *channel)
{
    return channel->puller_error != 0 || (!channel->acquire_active && channel->get == channel->put);
}

/* G33, G34, G35, G36, G37, G39: a fresh channel, and the words lent unchanged to every step. */
const char *run_breach(struct draw *draw, const struct submission *submission, uint32_t steps)
{
    static struct run run;
    const char *breach;

    run.draw = draw;
    run.submission = submission;
    run.is_let_go = !draw_once_in(draw, 4);
    run.is_in_run = false;
    set_words(&run);
    draw_memory(&run);
    breach = state_breach(&run.channel, open_channel(&run));
    for (uint32_t i = 0; i < steps && breach == NULL && !is_over(&run.channel); i++) {
        breach = step_breach(&run);
        if (draw_once_in(draw, 16))
            draw_memory(&run);
    }
    return breach;
}

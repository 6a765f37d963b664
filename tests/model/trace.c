#include "trace.h"

#include <inttypes.h>
#include <string.h>

/* ---- Names ---- */

/* S30, T5: the names of the kinds. */
const char *model_kind_name(uint32_t kind)
{
    static const char *const names[] = {
        [KIND_COMMAND] = "command", [KIND_COUNT] = "count",     [KIND_BIND] = "bind",
        [KIND_REF] = "ref",         [KIND_EVENT] = "event",     [KIND_DMA] = "dma",
        [KIND_OFFSET] = "offset",   [KIND_ACQUIRE] = "acquire", [KIND_RELEASE] = "release",
        [KIND_WAIT] = "wait",       [KIND_FORWARD] = "forward", [KIND_ERROR] = "error",
        [KIND_ENTRY] = "entry",     [KIND_DISCARD] = "discard", [KIND_IDLE] = "idle",
        [KIND_STOPPED] = "stopped",
    };

    _Static_assert(sizeof names / sizeof names[0] == KIND_LAST + 1, "every kind has a name");
    return names[kind];
}

/* T11: the names of the whys. */
const char *model_why_name(uint32_t why)
{
    static const char *const names[] = {
        [WHY_FORM] = "FORM", [WHY_LEVEL] = "LEVEL", [WHY_MODE] = "MODE", [WHY_SLI] = "SLI"};

    _Static_assert(sizeof names / sizeof names[0] == WHY_COUNT, "every why has a name");
    return names[why];
}

/* T8, T9: the names of the causes, where there are two the pusher's. */
const char *model_cause_name(uint32_t pusher_error, uint32_t puller_error)
{
    static const char *const pusher_names[] = {
        [PUSHER_CALL] = "CALL",     [PUSHER_NON_CACHE] = "NON_CACHE",
        [PUSHER_RETURN] = "RETURN", [PUSHER_RESERVED_CMD] = "RESERVED_CMD",
        [PUSHER_IB] = "IB",         [PUSHER_PROTECTION] = "PROTECTION",
    };
    static const char *const puller_names[] = {
        [PULLER_NO_HASH] = "NO_HASH",         [PULLER_EMPTY_SUBCHANNEL] = "EMPTY_SUBCHANNEL",
        [PULLER_SEMAPHORE_1] = "SEMAPHORE_1", [PULLER_SEMAPHORE_2] = "SEMAPHORE_2",
        [PULLER_SEMAPHORE_3] = "SEMAPHORE_3", [PULLER_SEMAPHORE_4] = "SEMAPHORE_4",
    };

    return pusher_error != 0 ? pusher_names[pusher_error] : puller_names[puller_error];
}

/* ---- Lines ---- */

/* T3, T10: the line of a step. */
void model_trace_step(FILE *out, uint32_t step, uint64_t get, struct answer answer)
{
    fprintf(out, "step=%" PRIu32 " get=%" PRIu64 " kind=%s", step, get, model_kind_name(answer.kind));
    /* T4: the fields, where the event has them. */
    if (answer.fields)
        fprintf(out, " subc=%" PRIu32 " mthd=%" PRIu32 " param=%" PRIu32, answer.subchannel, answer.method,
                answer.parameter);
    fputc('\n', out);
}

/* T7: the part that an error alone has: its cause, and behind RESERVED_CMD its why. */
static void print_cause(FILE *out, const struct channel *channel)
{
    fprintf(out, " cause=%s", model_cause_name(channel->pusher_error, channel->puller_error));
    if (channel->pusher_error == PUSHER_RESERVED_CMD)
        fprintf(out, " why=%s", model_why_name(channel->pusher_why));
}

/* T7, T10: the last line. */
void model_trace_end(FILE *out, uint32_t end, uint32_t steps, const struct channel *channel)
{
    static const char *const names[] = {
        [ENDED_IDLE] = "idle", [ENDED_BUDGET] = "budget", [ENDED_ERROR] = "error"};

    fprintf(out, "end=%s", names[end]);
    if (end == ENDED_ERROR)
        print_cause(out, channel);
    fprintf(out, " steps=%" PRIu32 " get=%" PRIu64 " ref=%" PRIu32 "\n", steps, channel->get, channel->ref);
}

/* ---- The run ---- */

/* T1: the channel of the program. Nothing of that is refused. */
static struct channel open_channel(size_t word_count)
{
    struct setup setup = {{3, MODE_NV04, false}, 0, UINT32_MAX, 0};
    struct channel channel;

    model_open(&channel, setup, NULL, 0);
    model_set_put(&channel, (uint32_t)(4 * word_count));
    return channel;
}

/* S8, T6: whether a further step would be idle. It is one of a copy, with semaphore words of its own to
 * write. */
static bool would_idle(const struct channel *channel, const struct lent *lent)
{
    uint32_t semaphores[TRACE_SEMAPHORES];
    struct channel further = *channel;
    struct lent further_lent = *lent;

    memcpy(semaphores, lent->semaphores, sizeof semaphores);
    further_lent.semaphores = semaphores;
    return model_step(&further, &further_lent).kind == KIND_IDLE;
}

/* T6: how a run ends that ends here. */
static uint32_t end_of(const struct channel *channel, const struct lent *lent)
{
    if (channel->pusher_error != 0 || channel->puller_error != 0)
        return ENDED_ERROR;
    return would_idle(channel, lent) ? ENDED_IDLE : ENDED_BUDGET;
}

/* T1, T6, T7: a line a step, then the last one. */
static struct traced trace_words(FILE *out, const uint32_t *words, size_t count)
{
    uint32_t semaphores[TRACE_SEMAPHORES] = {0};
    struct lent lent = {.words = words,
                        .word_count = count,
                        .semaphores = semaphores,
                        .semaphore_count = TRACE_SEMAPHORES,
                        .clock = 0};
    struct channel channel = open_channel(count);
    struct traced traced = {0};
    uint32_t steps = 0;

    while (steps < TRACE_STEPS && end_of(&channel, &lent) == ENDED_BUDGET) {
        uint64_t get = channel.get;
        struct answer answer = model_step(&channel, &lent);

        steps++;
        traced.kinds[answer.kind]++;
        model_trace_step(out, steps, get, answer);
    }
    traced.end = end_of(&channel, &lent);
    traced.pusher_error = channel.pusher_error;
    traced.pusher_why = channel.pusher_why;
    traced.puller_error = channel.puller_error;
    model_trace_end(out, traced.end, steps, &channel);
    return traced;
}

/* W17: the lowest byte first. */
static uint32_t word_at(const uint8_t *bytes)
{
    return (uint32_t)bytes[0] | (uint32_t)bytes[1] << 8 | (uint32_t)bytes[2] << 16 | (uint32_t)bytes[3] << 24;
}

/* R29, T2: the text, which with a refusal is one line. */
struct traced model_trace(FILE *out, const uint8_t *bytes, size_t length)
{
    uint32_t words[TRACE_WORDS];

    /* R29: too many bytes come before a part word. */
    if (length > 4 * TRACE_WORDS) {
        fputs("refused=SIZE\n", out);
        return (struct traced){.end = ENDED_SIZE};
    }
    if (length % 4 != 0) {
        fputs("refused=LENGTH\n", out);
        return (struct traced){.end = ENDED_LENGTH};
    }
    for (size_t i = 0; i < length / 4; i++)
        words[i] = word_at(bytes + 4 * i);
    return trace_words(out, words, length / 4);
}

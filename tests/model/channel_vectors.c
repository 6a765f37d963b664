/* Writes the vectors of the channel to standard output: questions and the model's answers, as little-endian
 * words. A record starts with its kind:
 *   1 OPEN    SETUP, table words lent, TABLE | refusal, entry, CHANNEL
 *   2 RUN     SETUP, TABLE, MEMORY, count of operations, operations
 *   3 SINGLE  CHANNEL, words lent, entries lent, table words lent, semaphore words lent, CLOCK, TABLE, MEMORY
 *             | header, ANSWER
 *   4 PUT     CHANNEL, put | header, refusal, deltas
 * SETUP is level, mode, ib_order, SLI, mask, limit; CHANNEL is the row of record.h; CLOCK is two words, the
 * low half first. TABLE is a count and so many table words; MEMORY the same for words, entries (two words
 * each, low half first) and semaphore words. These are the first words of a pool. The others are 0, those of
 * the table 0x80000000 plus their place. The first words of a pool are lent, to a run's opening all table
 * words that the record gives.
 * A header is number | d << 8 | m << 16: an operation's number, d deltas of the channel and m of semaphore
 * memory, of which a step may write up to four words. The operations of a run, on the channel that opening
 * gives:
 *   1 put     header, put | refusal, deltas
 *   2 store   header, place, value: the host stores a semaphore word
 *   3 step    header, lent, CLOCK | ANSWER
 * where lent is words | entries << 8 | table words << 16 | semaphore words << 24. ANSWER is refusal |
 * kind << 8 | fields << 16, then subchannel, method and parameter if fields is 1, then the deltas: of the
 * channel the place in the row | value << 8, or place | 0x80 and the value where that has more than 24 bits;
 * of the memory place and value of each word that is another than before, places rising.
 * With --counts it prints how many there are of each kind, and how many per answer, instead. */
#include "channel_vectors.h"
#include "pattern.h"

/* ---- Records under way ---- */

enum { OP_PUT = 1, OP_STEP = 3 };

void add(struct buffer *buffer, uint32_t word)
{
    buffer->words[buffer->count++] = word;
}

void add_words(struct buffer *buffer, const uint32_t *words, size_t count)
{
    for (size_t i = 0; i < count; i++)
        add(buffer, words[i]);
}

void add_counted(struct buffer *buffer, const uint32_t *words, uint32_t count)
{
    add(buffer, count);
    add_words(buffer, words, count);
}

/* R35, S33: counts the why of a channel that is given, and once more where no word has it at its setting. */
static void count_stored(struct vectors *vectors, const struct channel *channel)
{
    if (channel->pusher_why == WHY_NONE)
        return;
    count_one(vectors, STORED_WHY, channel->pusher_why);
    if (!why_fits(channel->setup.setting, channel->pusher_why))
        count_one(vectors, MISFIT_WHY, channel->pusher_why);
}

void add_channel(struct vectors *vectors, struct buffer *buffer, const struct channel *channel)
{
    struct record record = record_of(channel);

    for (unsigned i = 0; i < CHANNEL_WORDS; i++)
        if (record.word[i] != 0)
            count_one(vectors, WORD, i);
    count_stored(vectors, channel);
    add_words(buffer, record.word, CHANNEL_WORDS);
}

void add_clock(struct buffer *buffer, uint64_t clock)
{
    add(buffer, (uint32_t)clock);
    add(buffer, (uint32_t)(clock >> 32));
}

void add_memory(struct buffer *buffer, const struct memory *memory)
{
    add_counted(buffer, memory->words, memory->word_count);
    add(buffer, memory->entry_count);
    for (uint32_t i = 0; i < memory->entry_count; i++) {
        add(buffer, (uint32_t)memory->entries[i]);
        add(buffer, (uint32_t)(memory->entries[i] >> 32));
    }
    add_counted(buffer, memory->semaphores, memory->semaphore_count);
}

/* Adds the words in which a channel differs from what it was; the answer is how many there are. */
static uint32_t add_deltas(struct buffer *buffer, const struct record *before, const struct channel *channel)
{
    struct record after = record_of(channel);
    uint32_t deltas = 0;

    for (uint32_t i = 0; i < CHANNEL_WORDS; i++) {
        uint32_t value = after.word[i];

        if (value == before->word[i])
            continue;
        deltas++;
        if (value < 1 << 24) {
            add(buffer, i | value << 8);
        } else {
            add(buffer, i | 0x80);
            add(buffer, value);
        }
    }
    return deltas;
}

/* S3, P17, P29: adds the semaphore words that a step made others; the answer is how many there are. */
static uint32_t add_written(struct buffer *buffer, const uint32_t *before, const struct lent *lent)
{
    uint32_t written = 0;

    for (uint32_t i = 0; i < lent->semaphore_count; i++) {
        if (lent->semaphores[i] == before[i])
            continue;
        written++;
        add(buffer, i);
        add(buffer, lent->semaphores[i]);
    }
    return written;
}

/* ---- What is counted of a step ---- */

enum { NO_METHOD = 0x2000 };

/* The method that the puller took in a step, by its byte number, or NO_METHOD. */
static uint32_t pulled(const struct channel *before, const struct channel *after, struct answer answer)
{
    bool is_taken = answer.fields && answer.kind != KIND_DISCARD;
    bool has_failed = answer.kind == KIND_ERROR && after->puller_error != 0 && !before->acquire_active;

    return is_taken || has_failed ? 4 * before->method : NO_METHOD;
}

/* Whether a step tried an acquire again. */
static bool is_retry(const struct channel *before, struct answer answer)
{
    return before->acquire_active && answer.refusal == REFUSAL_NONE && answer.kind != KIND_STOPPED;
}

bool is_long_step(const struct channel *before, const struct channel *after, struct answer answer)
{
    return pulled(before, after, answer) == 0x1c ||
           (is_retry(before, answer) && before->acquire_mode != ACQUIRE_OLD);
}

/* What the trigger of a long semaphore is counted as, by its operation. */
static uint32_t operation_kind(uint32_t operation)
{
    switch (operation) {
    case TRIGGER_EQUAL:
        return LONG_EQUAL;
    case TRIGGER_RELEASE:
        return LONG_RELEASE;
    case TRIGGER_GREATER:
        return LONG_GREATER;
    default:
        return LONG_OTHER;
    }
}

/* Counts what came of a method of long semaphores, whose parameter was the word at the read address. */
static void count_long(struct vectors *vectors, const struct channel *before, const struct channel *after,
                       struct answer answer, const struct lent *lent)
{
    uint32_t method = pulled(before, after, answer);

    if (method == 0x1c)
        count_one(vectors, operation_kind(lent->words[before->get / 4]), answer.kind);
    if (method >= 0x10 && method <= 0x1c && answer.kind == KIND_ERROR)
        count_one(vectors, LONG_FAULT, after->puller_error);
}

/* Counts a retry by its mode, and once more where its mode is a long one and the level has none, to which no
 * run comes. */
static void count_retry(struct vectors *vectors, const struct channel *before, struct answer answer)
{
    static const uint32_t kinds[ACQUIRE_MODES] = {RETRY_OLD, RETRY_EQUAL, RETRY_GREATER};

    if (!is_retry(before, answer))
        return;
    count_one(vectors, kinds[before->acquire_mode], answer.kind);
    if (before->acquire_mode != ACQUIRE_OLD && before->setup.setting.level < 5)
        count_one(vectors, RETRY_BELOW, answer.kind);
}

/* S10: by the mode, and by which of limit and lent words the read address is past. Once more where an address
 * or, under 1, a place cut to 32 bits would be at a lent word. */
void count_read(struct vectors *vectors, uint32_t kind, const struct channel *before,
                const struct lent *lent, struct answer answer)
{
    uint64_t place = before->get / 4;
    bool is_above = before->get > before->setup.dma_limit;
    bool is_beyond = place >= lent->word_count;

    if (answer.refusal != REFUSAL_NONE || answer.kind == KIND_STOPPED || before->acquire_active ||
        before->get == before->put)
        return;
    count_one(vectors, kind, 4 * before->setup.setting.mode + 2 * is_beyond + is_above);
    if (is_beyond && (uint32_t)before->get / 4 < lent->word_count)
        count_one(vectors, FAR_READ, (uint32_t)place < lent->word_count);
}

/* S26, P23: counts what stopped the channel, by its number, where the step did. */
static void count_error(struct vectors *vectors, const struct channel *channel, struct answer answer,
                        bool was_retry)
{
    if (answer.kind != KIND_ERROR)
        return;
    if (channel->pusher_error != 0)
        count_one(vectors, ERROR, channel->pusher_error);
    if (channel->puller_error != 0)
        count_one(vectors, CAUSE, channel->puller_error);
    if (was_retry)
        count_one(vectors, RETRY_FAULT, channel->puller_error);
}

/* S33: a step that stops at a reserved word has stored its why. */
void count_why(struct vectors *vectors, uint32_t kind, const struct channel *channel, struct answer answer)
{
    uint32_t mode = channel->setup.setting.mode;

    if (answer.kind == KIND_ERROR && channel->pusher_error == PUSHER_RESERVED_CMD)
        count_one(vectors, kind, channel->pusher_why + WHY_SLI * mode);
}

/* ---- Steps and puts ---- */

/* S13, S29, S30: the event of a step, with its fields, and every word of channel or memory that changed. */
struct answer add_step(struct vectors *vectors, struct buffer *buffer, size_t header,
                       struct channel *channel, const struct lent *lent)
{
    static uint32_t semaphores[POOL];
    struct channel before = *channel;
    struct record row = record_of(&before);
    uint32_t deltas, written;
    struct answer answer;

    for (size_t i = 0; i < lent->semaphore_count; i++)
        semaphores[i] = lent->semaphores[i];
    answer = model_step(channel, lent);
    count_error(vectors, channel, answer, before.acquire_active);
    count_long(vectors, &before, channel, answer, lent);
    count_retry(vectors, &before, answer);
    add(buffer, answer.refusal | answer.kind << 8 | (uint32_t)answer.fields << 16);
    if (answer.fields) {
        add(buffer, answer.subchannel);
        add(buffer, answer.method);
        add(buffer, answer.parameter);
    }
    deltas = add_deltas(buffer, &row, channel);
    written = add_written(buffer, semaphores, lent);
    count_one(vectors, WRITTEN, written);
    buffer->words[header] = OP_STEP | deltas << 8 | written << 16;
    return answer;
}

uint32_t add_put(struct buffer *buffer, size_t header, struct channel *channel, uint32_t put)
{
    struct record before = record_of(channel);
    uint32_t refusal = model_set_put(channel, put);

    add(buffer, refusal);
    buffer->words[header] = OP_PUT | add_deltas(buffer, &before, channel) << 8;
    return refusal;
}

/* The places of a channel's words, by name, which tests/host compares with those of the program that reads
 * the records. */
static void print_layout(void)
{
#define PRINT_NUMBER(name, field) printf("%s %d\n", #name, AT_##name);
#define PRINT_WIDE(name, field) printf("%s %d\n%s_HIGH %d\n", #name, AT_##name, #name, AT_##name##_HIGH);
    CHANNEL_NUMBERS(PRINT_NUMBER, PRINT_WIDE)
    printf("CHANNEL_WORDS %d\n", CHANNEL_WORDS);
}

/* The numbers from one to another: kinds of event, or breaches, each of which tests/host wants to see. */
static int print_numbers(unsigned first, unsigned last)
{
    for (unsigned number = first; number <= last; number++)
        printf("%u\n", number);
    return end_of_output();
}

/* The one argument, if any, is --counts, --layout, --kinds or --breaches. */
int main(int count, char **arguments)
{
    /* OPEN, RUN, PUT and RUN_PUT are counted by the refusal, STEP and SINGLE by the event's kind (0 where
     * they are refused: then REFUSED and SINGLE_REFUSED by the refusal), ERROR and CAUSE by the pusher's and
     * the puller's error, RETRY_FAULT by the latter, STATE by the breach. WORD counts, by the place, the
     * words other than 0 of the channels that are written whole. The triggers of long semaphores are counted
     * by their operation, the retries by their mode (RETRY_BELOW: those of a long one below level 5), and in
     * runs both together as LONG_STEP, all by the event's kind; LONG_FAULT by the puller's error of 0x10 to
     * 0x1c; WRITTEN by how many semaphore words a step made others. SINGLE_READ and RUN_READ count the reads
     * of a word, by 1 where it is above the limit, plus 2 where it is beyond the lent words, plus 4 in IB
     * mode; FAR_READ those that only a cut address would make good, by 1 where a cut place would too.
     * SINGLE_WHY and RUN_WHY count the reserved words that stop a channel, by their why, plus 4 in IB mode;
     * STORED_WHY the whys of channels that are written whole, MISFIT_WHY those of them that no word has at
     * the channel's setting. */
    static const char *const names[] = {
        "OPEN",           "RUN",        "SINGLE",       "PUT",           "STEP",        "REFUSED",
        "SINGLE_REFUSED", "ERROR",      "CAUSE",        "RETRY_FAULT",   "STATE",       "RUN_PUT",
        "WORD",           "LONG_EQUAL", "LONG_GREATER", "LONG_RELEASE",  "LONG_OTHER",  "LONG_FAULT",
        "LONG_STEP",      "RETRY_OLD",  "RETRY_EQUAL",  "RETRY_GREATER", "RETRY_BELOW", "WRITTEN",
        "SINGLE_READ",    "RUN_READ",   "FAR_READ",     "SINGLE_WHY",    "RUN_WHY",     "STORED_WHY",
        "MISFIT_WHY"};
    static struct vectors vectors = {.draw = {0x5eed}};

    if (count == 2 && strcmp(arguments[1], "--layout") == 0) {
        print_layout();
        return end_of_output();
    }
    if (count == 2 && strcmp(arguments[1], "--kinds") == 0)
        return print_numbers(1, KIND_LAST);
    if (count == 2 && strcmp(arguments[1], "--breaches") == 0)
        return print_numbers(0, breach_count() - 1);
    if (!read_arguments(&vectors, count, arguments))
        return 2;
    put_opens(&vectors);
    put_runs(&vectors);
    put_singles(&vectors);
    put_puts(&vectors);
    if (vectors.counting)
        print_counts(&vectors, names, sizeof names / sizeof names[0]);
    return end_of_output();
}

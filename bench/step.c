/* The model's twin of the program step_bench: for the same input it makes the same steps and prints the same
 * text, so that their times can be compared. The input is the level, the number of steps and then the
 * channel's words, all little-endian. */
#include <inttypes.h>
#include <stdio.h>

#include "../tests/model/channel.h"

/* Kind 0 stands for a refusal. */
enum { KINDS = KIND_LAST + 1, SEMAPHORES = 16, MOST_STEPS = 4000000 };

static uint32_t words[SIZE_LIMIT];

/* The one object has an engine, so that methods can be forwarded. */
static const uint32_t table[ENTRY_WORDS] = {1, 1, 0x1000, 0};

/* The next word of the input. False at its end. */
static bool read_word(uint32_t *word)
{
    uint8_t bytes[4];

    if (fread(bytes, 1, sizeof bytes, stdin) != sizeof bytes)
        return false;
    *word = bytes[0] | (uint32_t)bytes[1] << 8 | (uint32_t)bytes[2] << 16 | (uint32_t)bytes[3] << 24;
    return true;
}

static size_t read_words(void)
{
    size_t count = 0;

    while (count < SIZE_LIMIT && read_word(&words[count]))
        count++;
    return count;
}

/* A fresh channel in NV04-style, with put at the end of so many words. */
static void open_channel(struct channel *channel, uint32_t level, size_t count)
{
    struct setup setup = {{level, MODE_NV04, false}, 0, UINT32_MAX, 0};

    model_open(channel, setup, table, ENTRY_WORDS);
    model_set_put(channel, (uint32_t)(4 * count));
}

/* Makes the steps, counts their kinds and gives the last read address; the clock counts the steps. A channel
 * that is idle, stopped or refused is opened again, so that few words give many steps too. */
static uint64_t make_steps(uint32_t level, uint32_t steps, size_t count, uint32_t *counts)
{
    uint32_t semaphores[SEMAPHORES] = {0};
    struct lent lent = {words, count, NULL, 0, table, ENTRY_WORDS, semaphores, SEMAPHORES, 0};
    struct channel channel;

    open_channel(&channel, level, count);
    for (uint32_t i = 0; i < steps; i++) {
        uint32_t kind;

        lent.clock = i;
        kind = model_step(&channel, &lent).kind;
        counts[kind]++;
        if (kind == 0 || kind == KIND_IDLE || kind == KIND_STOPPED)
            open_channel(&channel, level, count);
    }
    return channel.get;
}

int main(void)
{
    uint32_t level = 0, steps = 0, counts[KINDS] = {0};
    uint64_t get;

    if (!read_word(&level) || !read_word(&steps))
        return 1;
    if (steps > MOST_STEPS)
        steps = MOST_STEPS;
    get = make_steps(level, steps, read_words(), counts);
    for (unsigned i = 0; i < KINDS; i++)
        printf("%u %" PRIu32 "\n", i, counts[i]);
    printf("get %" PRIu64 "\n", get);
    return 0;
}

#include "listing.h"

/* W15: how many words a command has, its parameters among them. Jumps are commands like others, they are not
 * followed. */
static uint64_t words_of(struct reading command)
{
    switch (command.number) {
    case READING_INCREASING:
    case READING_NON_INCREASING:
        return 1 + (uint64_t)command.value[0];
    case READING_LONG:
        return 2 + (uint64_t)command.value[2];
    default:
        return 1;
    }
}

static struct listed without_command(uint32_t answer, uint32_t refusal)
{
    return (struct listed){answer, {0, {refusal, 0, 0}, WHY_NONE}};
}

/* K3, K6: the end that says why. */
static struct listed at_reserved(uint32_t why)
{
    return (struct listed){LISTED_RESERVED, {0, {0, 0, 0}, why}};
}

/* R23, K2, K3, K4: one answer. A word at a place has the same refusals, and past the last word the same
 * answer. */
struct listed model_listing_next(struct setting setting, const uint32_t *words, size_t count, uint64_t *place)
{
    struct reading reading = model_read_at(setting, words, count, *place);

    switch (reading.number) {
    case READING_REFUSED:
        return without_command(LISTED_REFUSED, reading.value[0]);
    case READING_PAST:
        return without_command(LISTED_PAST, REFUSAL_NONE);
    case READING_RESERVED:
        return at_reserved(reading.why);
    default:
        break;
    }
    /* K3, W16: a long form that lacks its count word reads as one of count 0, which has two words, one more
     * than there is. */
    if (words_of(reading) > count - *place)
        return without_command(LISTED_SHORT, REFUSAL_NONE);
    *place += words_of(reading);
    return (struct listed){LISTED_COMMAND, reading};
}

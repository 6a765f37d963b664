/* A channel as a row of words, which the vectors hold and the tests compare. */
#ifndef MODEL_RECORD_H
#define MODEL_RECORD_H

#include "channel.h"

/* The numbers of a channel, in the order of their words: the name of the place, and the field. One of 64 bits
 * has two words, the lower half first. crates/channel_vectors/src/layout.rt, which says how a field is added,
 * has the same names and places: tests/host compares the two lists. */
#define CHANNEL_NUMBERS(NUMBER, WIDE)              \
    NUMBER(LEVEL, setup.setting.level)             \
    NUMBER(MODE, setup.setting.mode)               \
    NUMBER(SLI, setup.setting.sli)                 \
    NUMBER(IB_ORDER, setup.ib_order)               \
    NUMBER(DMA_LIMIT, setup.dma_limit)             \
    WIDE(GET, get)                                 \
    WIDE(PUT, put)                                 \
    NUMBER(COUNT, count)                           \
    NUMBER(METHOD, method)                         \
    NUMBER(SUBCHANNEL, subchannel)                 \
    NUMBER(INCREASING, increasing)                 \
    NUMBER(COUNT_AWAITED, count_awaited)           \
    NUMBER(SUBROUTINE, subroutine)                 \
    NUMBER(RETURN_ADDRESS, return_address)         \
    NUMBER(IB_GET, ib_get)                         \
    NUMBER(IB_PUT, ib_put)                         \
    NUMBER(NOT_MAIN, not_main)                     \
    WIDE(DMA_MGET, dma_mget)                       \
    NUMBER(DMA_MGET_VALID, dma_mget_valid)         \
    NUMBER(SLI_MASK, setup.sli_mask)               \
    NUMBER(SLI_ACTIVE, sli_active)                 \
    NUMBER(PUSHER_ERROR, pusher_error)             \
    NUMBER(ENGINE_0, engines[0])                   \
    NUMBER(ENGINE_1, engines[1])                   \
    NUMBER(ENGINE_2, engines[2])                   \
    NUMBER(ENGINE_3, engines[3])                   \
    NUMBER(ENGINE_4, engines[4])                   \
    NUMBER(ENGINE_5, engines[5])                   \
    NUMBER(ENGINE_6, engines[6])                   \
    NUMBER(ENGINE_7, engines[7])                   \
    NUMBER(LAST_ENGINE, last_engine)               \
    NUMBER(REF, ref)                               \
    NUMBER(DMA_SEMAPHORE, dma_semaphore)           \
    NUMBER(SEMAPHORE_OFFSET, semaphore_offset)     \
    NUMBER(OFFSET_VALID, offset_valid)             \
    NUMBER(ACQUIRE_ACTIVE, acquire_active)         \
    NUMBER(ACQUIRE_VALUE, acquire_value)           \
    NUMBER(PULLER_ERROR, puller_error)             \
    WIDE(SEMAPHORE_ADDRESS, semaphore_address)     \
    NUMBER(SEMAPHORE_SEQUENCE, semaphore_sequence) \
    NUMBER(ACQUIRE_MODE, acquire_mode)             \
    NUMBER(PUSHER_WHY, pusher_why)

/* The place of each number's word, or of the lower of its two. */
#define NUMBER_PLACE(name, field) AT_##name,
#define WIDE_PLACE(name, field) AT_##name, AT_##name##_HIGH,
enum { CHANNEL_NUMBERS(NUMBER_PLACE, WIDE_PLACE) CHANNEL_WORDS };

struct record {
    uint32_t word[CHANNEL_WORDS];
};

/* Whether the number at a place has 64 bits. */
static inline bool record_is_wide(unsigned at)
{
#define NUMBER_IS_WIDE(name, field)
#define WIDE_IS_WIDE(name, field) at == AT_##name ||
    return CHANNEL_NUMBERS(NUMBER_IS_WIDE, WIDE_IS_WIDE) false;
}

static inline void record_set(struct record *record, unsigned at, uint64_t number)
{
    record->word[at] = (uint32_t)number;
    if (record_is_wide(at))
        record->word[at + 1] = (uint32_t)(number >> 32);
}

static inline uint64_t record_get(const struct record *record, unsigned at)
{
    uint64_t high = record_is_wide(at) ? record->word[at + 1] : 0;

    return high << 32 | record->word[at];
}

static inline struct record record_of(const struct channel *channel)
{
    struct record record = {{0}};

#define SET_NUMBER(name, field) record_set(&record, AT_##name, channel->field);
    CHANNEL_NUMBERS(SET_NUMBER, SET_NUMBER)
    return record;
}

/* The other way: the channel whose words these are. A flag is set by any word but 0. */
static inline struct channel channel_of(const struct record *record)
{
    struct channel channel = {0};

#define GET_NUMBER(name, field) channel.field = record_get(record, AT_##name);
    CHANNEL_NUMBERS(GET_NUMBER, GET_NUMBER)
    return channel;
}

#endif

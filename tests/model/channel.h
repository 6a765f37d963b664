/* A model of the command channel, written without a look at the code: opening it, setting put, and one step. */
#ifndef MODEL_CHANNEL_H
#define MODEL_CHANNEL_H

#include "word.h"

/* S26: the pusher's errors by their numbers; 0 stands for none. */
enum {
    PUSHER_CALL = 1,
    PUSHER_NON_CACHE = 2,
    PUSHER_RETURN = 3,
    PUSHER_RESERVED_CMD = 4,
    PUSHER_IB = 5,
    PUSHER_PROTECTION = 6
};

/* P23: the puller's errors by their numbers; 0 stands for none. */
enum {
    PULLER_NO_HASH = 1,
    PULLER_EMPTY_SUBCHANNEL = 2,
    PULLER_SEMAPHORE_1 = 3,
    PULLER_SEMAPHORE_2 = 4,
    PULLER_SEMAPHORE_3 = 5,
    PULLER_SEMAPHORE_4 = 6
};

/* S30: what a step did. The last is KIND_LAST: a further kind stands behind it, and moves it. */
enum {
    KIND_COMMAND = 1,
    KIND_COUNT = 2,
    KIND_BIND = 3,
    KIND_REF = 4,
    KIND_EVENT = 5,
    KIND_DMA = 6,
    KIND_OFFSET = 7,
    KIND_ACQUIRE = 8,
    KIND_RELEASE = 9,
    KIND_WAIT = 10,
    KIND_FORWARD = 11,
    KIND_ERROR = 12,
    KIND_ENTRY = 13,
    KIND_DISCARD = 14,
    KIND_IDLE = 15,
    KIND_STOPPED = 16,
    KIND_LAST = KIND_STOPPED
};

/* R3, R5, P1: the most words of an object table, those of an entry, the largest ib_order; eight
 * subchannels. */
enum { TABLE_LIMIT = 4096, ENTRY_WORDS = 4, ORDER_LIMIT = 12, SUBCHANNELS = 8 };

/* R32: the modes of an acquire. An old one waits at the offset, the two of long semaphores at the long
 * address: for its value, or for one that is greater or equal. */
enum { ACQUIRE_OLD = 0, ACQUIRE_EQUAL = 1, ACQUIRE_GREATER = 2, ACQUIRE_MODES = 3 };

/* P28: the operations of a trigger, each the whole of its parameter. */
enum { TRIGGER_EQUAL = 1, TRIGGER_RELEASE = 2, TRIGGER_GREATER = 4 };

/* P29: the words that a long release writes. */
enum { LONG_WORDS = 4 };

/* What is settled at opening. */
struct setup {
    struct setting setting;
    uint32_t ib_order;
    uint32_t dma_limit;
    uint32_t sli_mask;
};

struct channel {
    struct setup setup;

    /* The pusher: the read address and put, and the command under way. The method is a number, a fourth of
     * its byte number. */
    uint64_t get;
    uint64_t put;
    uint32_t count;
    uint32_t method;
    uint32_t subchannel;
    bool increasing;
    bool count_awaited;
    bool subroutine;
    uint32_t return_address;
    uint32_t ib_get;
    uint32_t ib_put;
    bool not_main;
    uint64_t dma_mget;
    bool dma_mget_valid;
    bool sli_active;
    uint32_t pusher_error;
    /* S33: of RESERVED_CMD the why of its word; of any other error, or none, 0. */
    uint32_t pusher_why;

    /* P10: the puller, in which a semaphore object at address 0 is none. */
    uint32_t engines[SUBCHANNELS];
    uint32_t last_engine;
    uint32_t ref;
    uint32_t dma_semaphore;
    uint32_t semaphore_offset;
    bool offset_valid;
    bool acquire_active;
    uint32_t acquire_value;
    uint32_t puller_error;

    /* P25, P26, P27: the long semaphore, by its byte number and its value; and the mode of the last acquire
     * that had to wait. */
    uint64_t semaphore_address;
    uint32_t semaphore_sequence;
    uint32_t acquire_mode;
};

/* The memory lent to one step, of which only semaphore words are written, and the clock. */
struct lent {
    const uint32_t *words;
    size_t word_count;
    const uint64_t *entries;
    size_t entry_count;
    const uint32_t *table;
    size_t table_count;
    uint32_t *semaphores;
    size_t semaphore_count;
    uint64_t clock;
};

/* R6: the answer of opening, a refusal, and for DUPLICATE the entry. */
struct opened {
    uint32_t refusal;
    uint32_t entry;
};

/* S29, P22: the answer of a step, a refusal or a kind, with the fields of a method where there is one. The
 * method is a byte number, the parameter the one that is handed on. */
struct answer {
    uint32_t refusal;
    uint32_t kind;
    bool fields;
    uint32_t subchannel;
    uint32_t method;
    uint32_t parameter;
};

/* Opens a channel over an object table of `count` words; where refused, it becomes the blank one. */
struct opened model_open(struct channel *channel, struct setup setup, const uint32_t *table, size_t count);

/* Sets put, in IB mode ib_put. The answer is a refusal, which leaves the channel as it was. */
uint32_t model_set_put(struct channel *channel, uint32_t put);

/* One step; a refusal leaves channel and semaphore words as they were. */
struct answer model_step(struct channel *channel, const struct lent *lent);

#endif

/* What the parts of the program that makes the channel's vectors share: the memory that a record gives, the
 * words of a record under way, and channels to ask about. */
#ifndef MODEL_CHANNEL_VECTORS_H
#define MODEL_CHANNEL_VECTORS_H

#include "channel.h"
#include "record.h"
#include "vectors.h"

/* What is counted: the kinds of record, which stand in the output under these numbers, then what --counts
 * tells of the steps in them. */
enum {
    OPEN = 1,
    RUN = 2,
    SINGLE = 3,
    PUT = 4,
    STEP = 5,
    REFUSED = 6,
    SINGLE_REFUSED = 7,
    ERROR = 8,
    CAUSE = 9,
    RETRY_FAULT = 10,
    STATE = 11,
    RUN_PUT = 12,
    WORD = 13,
    LONG_EQUAL = 14,
    LONG_GREATER = 15,
    LONG_RELEASE = 16,
    LONG_OTHER = 17,
    LONG_FAULT = 18,
    LONG_STEP = 19,
    RETRY_OLD = 20,
    RETRY_EQUAL = 21,
    RETRY_GREATER = 22,
    RETRY_BELOW = 23,
    WRITTEN = 24,
    SINGLE_READ = 25,
    RUN_READ = 26,
    FAR_READ = 27,
    SINGLE_WHY = 28,
    RUN_WHY = 29,
    STORED_WHY = 30,
    MISFIT_WHY = 31
};

/* The pools that memory is lent from: how many words they have, and how many of them a record can give. */
enum { TABLE_POOL = 4104, POOL = SIZE_LIMIT + 1, GIVEN = 64, GIVEN_ENTRIES = 32 };

/* The words at the start of each pool that a record gives. */
struct memory {
    uint32_t table[GIVEN];
    uint32_t table_count;
    uint32_t words[GIVEN];
    uint32_t word_count;
    uint64_t entries[GIVEN_ENTRIES];
    uint32_t entry_count;
    uint32_t semaphores[GIVEN];
    uint32_t semaphore_count;
};

/* How much of each pool is lent to a step. */
struct lens {
    uint32_t words;
    uint32_t entries;
    uint32_t table;
    uint32_t semaphores;
};

/* ---- Records under way (channel_vectors.c) ---- */

/* Room for the longest run. */
enum { BUFFER = 16384 };

struct buffer {
    uint32_t words[BUFFER];
    size_t count;
};

void add(struct buffer *buffer, uint32_t word);
void add_words(struct buffer *buffer, const uint32_t *words, size_t count);

/* A count and so many words. */
void add_counted(struct buffer *buffer, const uint32_t *words, uint32_t count);

void add_channel(struct vectors *vectors, struct buffer *buffer, const struct channel *channel);

/* The words, entries and semaphore words that a record gives, each after its count. */
void add_memory(struct buffer *buffer, const struct memory *memory);

/* A clock, the low half first. */
void add_clock(struct buffer *buffer, uint64_t clock);

/* Takes a step and adds what comes of it; its header goes to the place that was kept for it. */
struct answer add_step(struct vectors *vectors, struct buffer *buffer, size_t header,
                       struct channel *channel, const struct lent *lent);

/* Whether a step that led from one channel to another was about a long semaphore: its trigger was taken, or
 * an acquire in one of its modes was tried again. */
bool is_long_step(const struct channel *before, const struct channel *after, struct answer answer);

/* Counts the read of a word under a kind, where the step from this channel on made one. */
void count_read(struct vectors *vectors, uint32_t kind, const struct channel *before,
                const struct lent *lent, struct answer answer);

/* Counts the why of a step that stopped at a reserved word under a kind, by 4 more in IB mode. */
void count_why(struct vectors *vectors, uint32_t kind, const struct channel *channel, struct answer answer);

/* Sets put and adds what comes of it, in the same way. */
uint32_t add_put(struct buffer *buffer, size_t header, struct channel *channel, uint32_t put);

/* ---- Channels to ask about (channel_states.c) ---- */

/* Any number, in a third of all cases one at an end of 32 bits. */
uint32_t draw_any_number(struct draw *draw);

/* A clock of which neither half is 0 and the two are not the same, so that each is seen where it goes to. */
uint64_t draw_clock(struct draw *draw);

/* A well-formed channel that isn't stopped and waits for no semaphore; all its numbers are drawn. */
struct channel draw_channel(struct draw *draw, struct setting setting);

/* S26, S33: gives a channel an error of the pusher, or none; RESERVED_CMD has any of the whys, which need not
 * be one that a word has at the channel's setting. */
void set_pusher_error(struct draw *draw, struct channel *channel, uint32_t error);

/* The ways to be ill-formed, each by one number alone. */
unsigned breach_count(void);

/* A well-formed channel but for the breach's number: the nearest that is good, the nearest that is bad,
 * another bad one, and the farthest. */
enum { BREACH_GOOD, BREACH_NEAR, BREACH_OTHER, BREACH_FAR, BREACHES };
struct channel draw_breach(struct draw *draw, unsigned breach, unsigned which);

/* The breach's bad number set in another channel. */
void add_breach(struct channel *channel, unsigned breach);

/* ---- The records (one file each) ---- */

void put_opens(struct vectors *vectors);
void put_runs(struct vectors *vectors);
void put_singles(struct vectors *vectors);
void put_puts(struct vectors *vectors);

/* ---- The words of a run (channel_words.c) ---- */

/* How the words of a run end: of themselves, in a loop, or in one of the errors. */
enum {
    END_PLAIN,
    END_LOOP,
    END_CALL,
    END_NON_CACHE,
    END_RETURN,
    END_RESERVED,
    END_NO_BIND,
    END_NO_FORWARD,
    END_NO_DMA,
    END_SOFTWARE,
    END_EMPTY,
    END_CLASS,
    END_OFFSET,
    END_UNSET,
    END_PAST,
    END_HIGH,
    END_LOW,
    END_OPERATION,
    END_LONG_PAST,
    END_ANY,
    ENDINGS
};

/* An ending that a setting can come to. */
unsigned draw_ending(struct draw *draw, struct setting setting);

/* Fills in table, words, entries and semaphore words: some `size` words of commands that mostly make sense
 * at the set-up, then the ending. */
void compose(struct draw *draw, const struct setup *setup, unsigned ending, uint32_t size,
             struct memory *memory);

#endif

/* A model of the program that prints what a channel does with words, written without a look at the code. */
#ifndef MODEL_TRACE_H
#define MODEL_TRACE_H

#include <stdio.h>

#include "channel.h"

/* T1, T2, T6: the most words that are read, the semaphore words that are lent, and the most steps. */
enum { TRACE_WORDS = 8192, TRACE_SEMAPHORES = 1024, TRACE_STEPS = 65536 };

/* T2, T7: how a text ends, with one of the two refusals or with an end line. */
enum { ENDED_SIZE = 1, ENDED_LENGTH = 2, ENDED_IDLE = 3, ENDED_BUDGET = 4, ENDED_ERROR = 5 };

/* What a text tells, for those who count: its end, what stopped the channel (0 for none), with the why of a
 * reserved word, and how many steps there are of each kind. */
struct traced {
    uint32_t end;
    uint32_t pusher_error;
    uint32_t pusher_why;
    uint32_t puller_error;
    uint32_t kinds[KIND_LAST + 1];
};

/* Writes to `out` what the program prints for these bytes. */
struct traced model_trace(FILE *out, const uint8_t *bytes, size_t length);

/* The two kinds of line that a run has. No run of the program comes to all of them, so that they can be asked
 * for by themselves: a step's, with the read address before it, and the last, with the channel at the end. */
void model_trace_step(FILE *out, uint32_t step, uint64_t get, struct answer answer);
void model_trace_end(FILE *out, uint32_t end, uint32_t steps, const struct channel *channel);

/* The names of kinds, of whys and of causes. Of the two errors that can stop a channel, a run leaves one at
 * 0. */
const char *model_kind_name(uint32_t kind);
const char *model_why_name(uint32_t why);
const char *model_cause_name(uint32_t pusher_error, uint32_t puller_error);

#endif

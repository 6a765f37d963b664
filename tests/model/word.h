/* A model of command words, written without a look at the code: what a word reads as, which word a command is
 * written as, and which methods below 0x100 a level has. */
#ifndef MODEL_WORD_H
#define MODEL_WORD_H

#include <stdbool.h>
#include <stddef.h>
#include <stdint.h>

/* The two modes by their numbers. */
enum { MODE_NV04 = 0, MODE_IB = 1 };

/* R1, R2, R3, R4, R5, R6, R7, R8, R9, R10, R11, R12, R13: the refusals by their numbers; 0 stands for
 * none. */
enum {
    REFUSAL_NONE = 0,
    REFUSAL_LEVEL = 1,
    REFUSAL_MODE = 2,
    REFUSAL_ORDER = 3,
    REFUSAL_SLI = 4,
    REFUSAL_TABLE = 5,
    REFUSAL_DUPLICATE = 6,
    REFUSAL_PUT = 7,
    REFUSAL_SIZE = 8,
    REFUSAL_LENGTH = 9,
    REFUSAL_FIELD = 10,
    REFUSAL_ROOM = 11,
    REFUSAL_FORM = 12,
    REFUSAL_STATE = 13,
    REFUSAL_COUNT
};

/* R8: the most words that may be lent. */
enum { SIZE_LIMIT = 1048576 };

/* W1, W2, W3, W4, W5, W6, W7, W8, W12, W13, W16: what a reading is, by number. Only reading at a place can
 * answer READING_PAST. */
enum {
    READING_INCREASING = 1,
    READING_NON_INCREASING = 2,
    READING_SLI = 3,
    READING_RETURN = 4,
    READING_LONG = 5,
    READING_OLD_JUMP = 6,
    READING_JUMP = 7,
    READING_CALL = 8,
    READING_RESERVED = 9,
    READING_REFUSED = 10,
    READING_PAST = 11
};

/* W20, W21, W22, W23, W24: why a word is reserved, by number, in the order in which they are tried; 0 stands
 * for none. */
enum { WHY_NONE = 0, WHY_FORM = 1, WHY_LEVEL = 2, WHY_MODE = 3, WHY_SLI = 4, WHY_COUNT };

struct setting {
    uint32_t level;
    uint32_t mode;
    bool sli;
};

/* A reading's number and its values; values that a reading doesn't use are 0.
 * Increasing, non-increasing: count, subchannel, method. SLI conditional: mask. Long: subchannel, method,
 * count. Jumps and call: target. Refused: the refusal's number. Methods and targets are byte numbers.
 * Reserved: no value, but the why, which is 0 of any other. */
struct reading {
    uint32_t number;
    uint32_t value[3];
    uint32_t why;
};

/* X6: the writer's answer: REFUSAL_NONE and the count of words written, or a refusal and 0. FORM alone has a
 * why. */
struct written {
    uint32_t refusal;
    uint32_t count;
    uint32_t why;
};

/* R22: the first of LEVEL, MODE and SLI that a setting meets, or none. */
uint32_t model_setting_refusal(struct setting setting);

/* Reads a word by itself; the next word matters to the long form alone. */
struct reading model_read(struct setting setting, uint32_t word, uint32_t next);

/* Reads the word at a place of the lent words. Where no word follows it, the next word counts as 0. */
struct reading model_read_at(struct setting setting, const uint32_t *words, size_t count, uint64_t place);

/* Writes a command into an output of `room` words. Values that the command doesn't use are not looked at, nor
 * is the why of what is none. */
struct written model_write(struct setting setting, struct reading command, uint32_t *out, size_t room);

/* W18: whether a level has a method, given by its number, a fourth of its byte number; a level above 5 counts
 * as 5. */
bool model_present(uint32_t level, uint32_t number);

#endif

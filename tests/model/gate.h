/* A model of the gatekeeper, written without a look at the code: the judgement of words with their map and
 * permit list, and what one pair of a place and a state comes to. */
#ifndef MODEL_GATE_H
#define MODEL_GATE_H

#include "word.h"

/* G1 to G13: the reasons by their numbers; 0 stands for none. */
enum {
    REASON_NONE = 0,
    REASON_MAP_BYTE = 1,
    REASON_START = 2,
    REASON_RESERVED = 3,
    REASON_CALL = 4,
    REASON_RETURN = 5,
    REASON_PARAMETERS = 6,
    REASON_NON_CACHE = 7,
    REASON_PERMIT = 8,
    REASON_MARKED = 9,
    REASON_TARGET = 10,
    REASON_UNMARKED = 11,
    REASON_END = 12,
    REASON_WRAPS = 13,
    REASON_COUNT
};

/* G22: the marks of a map byte; a byte of 0 is no start. */
enum { STATE_MAIN = 1, STATE_SUBROUTINE = 2, STATE_BOTH = 3 };

/* R9, G23: the permit list has 256 bytes for each subchannel, a bit for each of its 2,048 methods. */
enum { PERMIT_BYTES = 2048, METHOD_BYTES = 256, METHODS = 2048 };

/* W17, G32: what the gatekeeper is lent. The words are little-endian bytes; SLI is off where it is 0, else
 * on. */
struct submission {
    uint32_t level;
    uint32_t sli;
    const uint8_t *words;
    size_t words_length;
    const uint8_t *map;
    size_t map_length;
    const uint8_t *permit;
    size_t permit_length;
};

/* G24, G31, G40: accepted are words with neither a reason nor a refusal. Only a reason has a place, only
 * reason 3 a why, and no refusal has a count. */
struct judgement {
    uint32_t reason;
    uint32_t refusal;
    uint32_t why;
    uint32_t count;
    uint32_t place;
};

struct judgement model_judge(const struct submission *submission);

/* ---- One pair, for the gatekeeper and for the path rule ---- */

/* What the reasons of a pair look at besides the map, of a submission that is not refused. */
struct code {
    struct setting setting;
    const uint8_t *words;
    uint32_t count;
    const uint8_t *permit;
};

struct code model_code(const struct submission *submission);

/* A place, counted in words, and one of the two states. */
struct pair {
    uint32_t place;
    uint32_t state;
};

/* What comes after a command: so many parameters, and its next pairs, whose place may be the end or past
 * it. */
struct follow {
    uint32_t parameters;
    uint32_t next_count;
    struct pair next[2];
};

/* G26, H2: the first of the reasons 3 to 13 that a pair has, in the order of G26, and what follows its
 * command. Without a map, 9 and 11 are not tried: what is left are those that the path rule names. */
uint32_t model_pair_reason(const struct code *code, const uint8_t *map, struct pair pair,
                           struct follow *follow);

#endif

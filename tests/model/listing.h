/* A model of the listing reader, written without a look at the code: the commands of lent words in turn. */
#ifndef MODEL_LISTING_H
#define MODEL_LISTING_H

#include "word.h"

/* K2, K3: what the reader answers, a command, one of the three ends, or a refusal. */
enum { LISTED_COMMAND = 1, LISTED_PAST = 2, LISTED_RESERVED = 3, LISTED_SHORT = 4, LISTED_REFUSED = 5 };

/* K6: the answer, with the command's reading. Without a command the reading is 0 throughout, but for a
 * refusal's number, which is its first value, and for the why of a reserved word. */
struct listed {
    uint32_t answer;
    struct reading reading;
};

/* K1, K2, K4: the answer at a place of the lent words, which the caller holds and which starts at 0. A
 * command moves the place past its words; else it stays. */
struct listed model_listing_next(struct setting setting, const uint32_t *words, size_t count,
                                 uint64_t *place);

#endif

/* A model of the search, of the repair and of readings for C, written without a look at the code. */
#ifndef MODEL_REPAIR_H
#define MODEL_REPAIR_H

#include "path.h"

/* R37: the most words that the repair takes. */
enum { REPAIR_LIMIT = 8192 };

/* What the search is lent: words as bytes, a permit list of any length, and a room whose length counts
 * entries. Any setting may be asked about. */
struct search {
    struct setting setting;
    const uint8_t *words;
    size_t words_length;
    const uint8_t *permit;
    size_t permit_length;
    uint64_t *room;
    size_t room_length;
};

/* What the repair is lent: a submission whose map it may write, and its two rooms, whose lengths count
 * entries. SLI is off where it is 0, else on. */
struct repair {
    uint32_t level;
    uint32_t sli;
    const uint8_t *words;
    size_t words_length;
    uint8_t *map;
    size_t map_length;
    const uint8_t *permit;
    size_t permit_length;
    uint64_t *list;
    size_t list_length;
    uint64_t *work;
    size_t work_length;
};

/* H11, H13: how many pairs were found, or how many places changed; with a refusal 0. */
struct outcome {
    uint32_t refusal;
    uint32_t count;
};

/* R36, H9, H10, H11: the search. */
struct outcome model_search(const struct search *search);

/* R37, H12, H13, H14: the repair. */
struct outcome model_repair(const struct repair *repair);

/* H13: an entry of the list. */
uint64_t model_change(uint32_t place, uint8_t old_byte, uint8_t new_byte);

/* H18: what the repair answers in C. */
uint64_t model_repair_number(struct outcome outcome);

/* W19: what reading a word answers in C, where SLI is a number as it is for the repair. */
uint64_t model_reading_number(uint32_t level, uint32_t mode, uint32_t sli, uint32_t word, uint32_t next);

#endif

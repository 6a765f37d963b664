/* What the parts of the program that makes the gatekeeper's vectors share: the submission under way, and
 * what a record holds of it. */
#ifndef MODEL_GATE_VECTORS_H
#define MODEL_GATE_VECTORS_H

#include "gate_draw.h"
#include "repair.h"
#include "vectors.h"

/* What is counted: the kinds of record, which stand in the output under these numbers, then what --counts
 * tells of them. */
enum {
    JUDGE = 1,
    LARGE = 2,
    REPAIR = 3,
    WIDE = 4,
    SEARCH = 5,
    READ = 6,
    REFUSED = 7,
    MISREADING = 8,
    CHANGED = 9,
    CHANGE = 10,
    MARK = 11,
    BAD = 12,
    SHORT = 13,
    FOUND = 14,
    ORDER = 15,
    SETTING = 16,
    LIST = 17,
    CUT = 18,
    WRAP = 19,
    PATH = 20,
    WHY = 21,
    FIRST_WHY = 22,
    MIDDLE_WHY = 23,
    INSIDE_WHY = 24,
    READ_WHY = 25
};

/* What a record can hold of words, and of bytes of the permit list that aren't the fill byte. */
enum { MOST_WORDS = 256, MOST_LISTED = 64 };

/* ---- Records under way (gate_vectors.c) ---- */

/* The submission that is asked about. */
extern struct given given;

/* The submissions of JUDGE records have so many settings: levels 0 to 5 with SLI off, then those that have
 * it with SLI on. */
enum { SETTINGS = 9 };
void give_setting(unsigned i);

/* A permit list with too many other bytes than its fill byte becomes one that permits all. */
void fit_permit(void);

/* How many permit bytes aren't the fill byte, and their indices and values. Here and below, the answer of
 * what adds to a record is how many words that takes. */
uint32_t listed_count(void);
size_t add_listed(uint32_t *record);

/* Level, SLI, the three lengths and the fill byte. */
size_t add_head(uint32_t *record);

/* Bytes as words. */
size_t add_bytes(uint32_t *record, const uint8_t *bytes, size_t length);

/* A number of entries of a room, and these, the lower half first. */
size_t add_entries(uint32_t *record, const uint64_t *room, size_t length);

/* G13, H2: PATH of a repair or a search that was done, by the first of its two answers where a reached run
 * goes past 0x1ffc, and only for that nothing follows, by the next where what follows a run up to 0x1ffc is
 * reached. A pair is given by its number. */
enum { PATH_REPAIR = 1, PATH_SEARCH = 3 };
void count_path(struct vectors *vectors, uint32_t answer, bool (*is_reached)(uint32_t pair));

/* ---- The kinds of record that came later, each with drawn numbers of its own (gate_repairs.c,
 * gate_searches.c) ---- */

void put_repairs(struct vectors *vectors);
void put_wides(struct vectors *vectors);
void put_searches(struct vectors *vectors);
void put_readings(struct vectors *vectors);

#endif

/* What the comparisons with the archive share: memory that ends where an unreadable page begins, and what is
 * told of a failure. */
#ifndef MODEL_COMPARE_H
#define MODEL_COMPARE_H

#include <stdbool.h>
#include <stddef.h>
#include <stdint.h>

/* Each of the programs has a name of its own, for what it tells. */
extern const char comparison[];

/* Ends the run where something doesn't hold that has nothing to do with a submission. */
void check(bool good, const char *sentence);

/* The bytes in groups of so many, a line for each row of equal groups; not more lines than can be read. */
void print_bytes(const char *name, const uint8_t *bytes, size_t length, size_t group);

/* ---- Lent memory ---- */

/* Some bytes are lent so far before the unreadable page, at most, so that they lie at any address. */
enum { MOST_GAP = 3 };

/* The end of a room for so many bytes and a gap: there an unreadable page begins, which is tried. */
uint8_t *make_room(size_t length);

/* A copy that ends with its room, or a gap before it. Every other turn memory of length 0 is lent by a null
 * pointer. */
uint8_t *lend(uint8_t *end, const uint8_t *bytes, size_t length, unsigned long turn);

/* Whether lent bytes are those that they were copied from. */
bool is_kept(const uint8_t *lent, const uint8_t *bytes, size_t length);

#endif

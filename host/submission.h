/* A submission: the setting that it is for, and the bytes of its three files. */
#ifndef SUBMISSION_H
#define SUBMISSION_H

#include <stdbool.h>
#include <stddef.h>
#include <stdint.h>

/* A level above the first is none; SLI is there from the second on. */
enum { TOP_LEVEL = 5, FIRST_SLI_LEVEL = 3 };

/* The one length that a permit list has. */
enum { PERMIT_LIMIT = 2048 };

/* A file's bytes, or its first limit + 1 where it has more. The room is the program's, and has so many. */
struct lent {
    uint8_t *bytes;
    size_t limit;
    size_t length;
};

/* The limits are the longest words, map and permit list that aren't refused for their length alone: the
 * map's is a quarter of the words'. */
struct submission {
    uint32_t level;
    uint32_t sli;
    struct lent words;
    struct lent map;
    struct lent permit;
};

/* Level and SLI from the arguments LEVEL and SLI; says what is wrong with them. */
bool read_setting(struct submission *submission, const char *level, const char *sli);

/* The bytes of three files; says which of them can't be read. */
bool read_files(struct submission *submission, const char *words, const char *map, const char *permit);

/* How many whole words there are, and one of them. */
uint32_t word_count(const struct submission *submission);
uint32_t word_at(const struct submission *submission, uint32_t place);

#endif

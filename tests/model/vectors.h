/* What the makers of vectors share: the words that they write, and the counts that --counts prints. */
#ifndef MODEL_VECTORS_H
#define MODEL_VECTORS_H

#include <stdio.h>
#include <string.h>

#include "draw.h"

enum { KINDS = 32, ANSWERS = 64 };

/* The numbers still to be drawn, and what was counted so far. */
struct vectors {
    struct draw draw;
    bool counting;
    unsigned long records[KINDS];
    unsigned long answers[KINDS][ANSWERS];
};

/* Counts one more of a kind, under an answer. */
static inline void count_one(struct vectors *vectors, uint32_t kind, uint32_t answer)
{
    vectors->records[kind]++;
    vectors->answers[kind][answer]++;
}

static inline void put_word(uint32_t word)
{
    for (unsigned i = 0; i < 4; i++)
        putchar((int)(word >> (8 * i) & 0xff));
}

/* One record of a kind, with the answer that it is counted under. */
static inline void put_record(struct vectors *vectors, uint32_t kind, const uint32_t *words, size_t count,
                              uint32_t answer)
{
    count_one(vectors, kind, answer);
    if (vectors->counting)
        return;
    put_word(kind);
    for (size_t i = 0; i < count; i++)
        put_word(words[i]);
}

/* One line for each name, the first being that of kind 1: how many there are, then how many per answer. */
static inline void print_counts(const struct vectors *vectors, const char *const *names, unsigned count)
{
    for (unsigned kind = 1; kind <= count; kind++) {
        printf("%s %lu:", names[kind - 1], vectors->records[kind]);
        for (unsigned answer = 0; answer < ANSWERS; answer++)
            if (vectors->answers[kind][answer] != 0)
                printf(" %u=%lu", answer, vectors->answers[kind][answer]);
        putchar('\n');
    }
}

/* The program's one argument, if any, is --counts. */
static inline bool read_arguments(struct vectors *vectors, int count, char **arguments)
{
    vectors->counting = count == 2 && strcmp(arguments[1], "--counts") == 0;
    return count <= 1 || vectors->counting;
}

/* The status that the program ends with. */
static inline int end_of_output(void)
{
    return fflush(stdout) != 0 || ferror(stdout) ? 1 : 0;
}

#endif

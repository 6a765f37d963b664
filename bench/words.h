/* The words that the benchmark's inputs are made of. Counts and targets fit; a method is a byte number. */
#ifndef BENCH_WORDS_H
#define BENCH_WORDS_H

#include <stdint.h>

static inline uint32_t increasing(uint32_t count, uint32_t method)
{
    return count << 18 | method;
}

static inline uint32_t non_increasing(uint32_t count, uint32_t method)
{
    return UINT32_C(2) << 29 | increasing(count, method);
}

/* A jump to a place, which is counted in words. */
static inline uint32_t old_jump(uint32_t place)
{
    return UINT32_C(1) << 29 | 4 * place;
}

static inline uint32_t jump(uint32_t place)
{
    return 4 * place | 1;
}

#endif

/* Pseudo-random numbers from a fixed seed (splitmix64), the same on every run. */
#ifndef MODEL_DRAW_H
#define MODEL_DRAW_H

#include <stdint.h>

#include "word.h"

struct draw {
    uint64_t state;
};

static inline uint32_t draw_number(struct draw *draw)
{
    uint64_t z = draw->state += UINT64_C(0x9e3779b97f4a7c15);

    z = (z ^ z >> 30) * UINT64_C(0xbf58476d1ce4e5b9);
    z = (z ^ z >> 27) * UINT64_C(0x94d049bb133111eb);
    return (uint32_t)((z ^ z >> 31) >> 32);
}

static inline uint32_t draw_below(struct draw *draw, uint32_t limit)
{
    return draw_number(draw) % limit;
}

/* True once in so many times. */
static inline bool draw_once_in(struct draw *draw, uint32_t times)
{
    return draw_below(draw, times) == 0;
}

/* One of a few numbers. */
static inline uint32_t draw_among(struct draw *draw, const uint32_t *numbers, uint32_t count)
{
    return numbers[draw_below(draw, count)];
}

/* A word: one in five is any word, the others lean to bits 1-0 = 00 and to upper halves 0 to 4, since few
 * words at large are SLI conditionals, returns or long forms. */
static inline uint32_t draw_word(struct draw *draw)
{
    uint32_t lean = draw_below(draw, 5);
    uint32_t any = draw_number(draw);
    uint32_t upper = draw_below(draw, 5) << 16;

    switch (lean) {
    case 0:
        return any;
    case 1:
        return any & ~UINT32_C(3);
    case 2:
        return upper | (any & 0xffff);
    case 3:
        return upper | (any & 0xfffc);
    default:
        /* Bits 3-0 zero, and the whole lower half in one of eight. */
        return upper | (any >> 29 == 0 ? 0 : any & 0xfff0);
    }
}

/* A setting that is not refused. */
static inline struct setting draw_setting(struct draw *draw)
{
    uint32_t level = draw_below(draw, 6);
    uint32_t mode = draw_below(draw, 2);
    bool sli = draw_below(draw, 2) == 1;

    return (struct setting){level, level >= 4 ? mode : MODE_NV04, level >= 3 && sli};
}

#endif

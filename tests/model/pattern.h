/* The forms of command words as document 004 draws them, and words that are reserved, for the self-test and
 * the vectors. The model does without them, so that the two are two readings of the same forms. */
#ifndef MODEL_PATTERN_H
#define MODEL_PATTERN_H

#include <stdint.h>

#include "draw.h"

enum { PATTERNS = 8 };

/* W1, W2, W3, W4, W5, W6, W7, W8: bit 31 first; the pattern of reading number n is at n - 1. */
static const char *const patterns[PATTERNS] = {
    "000CCCCCCCCCCC00SSSMMMMMMMMMMM00", /* increasing methods */
    "010CCCCCCCCCCC00SSSMMMMMMMMMMM00", /* non-increasing methods */
    "0000000000000001MMMMMMMMMMMM0000", /* SLI conditional */
    "00000000000000100000000000000000", /* return */
    "0000000000000011SSSMMMMMMMMMMM00", /* long non-increasing methods */
    "001JJJJJJJJJJJJJJJJJJJJJJJJJJJ00", /* old jump */
    "JJJJJJJJJJJJJJJJJJJJJJJJJJJJJJ01", /* jump */
    "JJJJJJJJJJJJJJJJJJJJJJJJJJJJJJ10", /* call */
};

/* The bits of a pattern that hold a letter, or a fixed '0' or '1'. */
static inline uint32_t pattern_bits(const char *pattern, char letter)
{
    uint32_t mask = 0;

    for (unsigned i = 0; i < 32; i++)
        mask = mask << 1 | (pattern[i] == letter);
    return mask;
}

/* The bits of a word under a mask, gathered into a number, lowest first. */
static inline uint32_t gather(uint32_t mask, uint32_t word)
{
    uint32_t number = 0;
    unsigned place = 0;

    for (unsigned i = 0; i < 32; i++)
        if (mask >> i & 1)
            number |= (word >> i & 1) << place++;
    return number;
}

/* The other way: a number spread over the bits of a mask. */
static inline uint32_t spread(uint32_t mask, uint32_t number)
{
    uint32_t word = 0;
    unsigned place = 0;

    for (unsigned i = 0; i < 32; i++)
        if (mask >> i & 1)
            word |= (number >> place++ & 1) << i;
    return word;
}

/* A word that has a pattern's form, its fields drawn. */
static inline uint32_t draw_form(struct draw *draw, const char *pattern)
{
    uint32_t fixed = pattern_bits(pattern, '0') | pattern_bits(pattern, '1');

    return (draw_number(draw) & ~fixed) | pattern_bits(pattern, '1');
}

/* Whether words can have a why at a setting that is not refused. Of forms that the other mode has, each mode
 * lacks some. */
static inline bool why_fits(struct setting setting, uint32_t why)
{
    switch (why) {
    case WHY_LEVEL:
        return setting.level < 3;
    case WHY_SLI:
        return setting.level >= 3 && !setting.sli;
    default:
        return true;
    }
}

/* A word that is reserved for a why that the setting has: of no form, and mostly one bit off a form, or of a
 * form that may not be used there. */
static inline uint32_t draw_reserved(struct draw *draw, struct setting setting, uint32_t why)
{
    uint32_t word;

    do {
        word = draw_form(draw, patterns[draw_below(draw, PATTERNS)]);
        if (why == WHY_FORM)
            word = draw_once_in(draw, 4) ? draw_word(draw) : word ^ UINT32_C(1) << draw_below(draw, 32);
    } while (model_read(setting, word, 0).why != why);
    return word;
}

/* One of the whys that a setting has. */
static inline uint32_t draw_why(struct draw *draw, struct setting setting)
{
    uint32_t why = WHY_FORM + draw_below(draw, WHY_COUNT - WHY_FORM);

    while (!why_fits(setting, why))
        why = WHY_FORM + draw_below(draw, WHY_COUNT - WHY_FORM);
    return why;
}

#endif

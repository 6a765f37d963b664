#include "word.h"

/* Bits high to low of a word, moved down to bit 0. */
static uint32_t bits(uint32_t word, unsigned high, unsigned low)
{
    return (word >> low) & (UINT32_MAX >> (31 - (high - low)));
}

/* R21, R22: the first that applies. */
uint32_t model_setting_refusal(struct setting setting)
{
    /* R1: there is no such level. */
    if (setting.level > 5)
        return REFUSAL_LEVEL;
    /* R2: there is no such mode, or not at this level. */
    if (setting.mode > MODE_IB || (setting.mode == MODE_IB && setting.level < 4))
        return REFUSAL_MODE;
    /* R4: SLI that the level doesn't have. */
    if (setting.sli && setting.level < 3)
        return REFUSAL_SLI;
    return REFUSAL_NONE;
}

/* W3, W4, W5: the forms whose whole upper half is fixed, of a word whose bits 17-16 are not 00. */
static uint32_t form_by_upper_half(uint32_t word)
{
    switch (bits(word, 31, 16)) {
    case 0x0001:
        /* W3: bits 3-0 are fixed too. */
        return bits(word, 3, 0) == 0 ? READING_SLI : READING_RESERVED;
    case 0x0002:
        /* W4: the one word, so that 0x00020004 is reserved. */
        return word == 0x00020000 ? READING_RETURN : READING_RESERVED;
    case 0x0003:
        /* W5: bits 1-0, the other fixed ones, are 00 here. */
        return READING_LONG;
    default:
        return READING_RESERVED;
    }
}

/* W1, W2, W6: the form of a word whose bits 1-0 are 00. */
static uint32_t form_by_upper_bits(uint32_t word)
{
    uint32_t kind = bits(word, 31, 29);

    /* W6: bits 17-16 belong to its target. */
    if (kind == 1)
        return READING_OLD_JUMP;
    if (bits(word, 17, 16) != 0)
        return form_by_upper_half(word);
    /* W1: 31-29 = 000. */
    if (kind == 0)
        return READING_INCREASING;
    /* W2: 31-29 = 010. */
    if (kind == 2)
        return READING_NON_INCREASING;
    return READING_RESERVED;
}

/* W7, W8, W10: the form that a word has, whether or not it may be used. Bits 1-0 come first: where they are
 * 01 or 10, what stands in the upper half is part of a target. */
static uint32_t form(uint32_t word)
{
    switch (bits(word, 1, 0)) {
    case 0:
        return form_by_upper_bits(word);
    case 1:
        return READING_JUMP;
    case 2:
        return READING_CALL;
    default:
        /* W12: no form has 11 there. */
        return READING_RESERVED;
    }
}

/* W4, W7, W8, W11, W21, W22: return, jump and call ask for level 2 and for NV04-style, in that order. */
static uint32_t why_no_flow(struct setting setting)
{
    if (setting.level < 2)
        return WHY_LEVEL;
    return setting.mode == MODE_NV04 ? WHY_NONE : WHY_MODE;
}

/* W3, W11, W21, W23: the SLI conditional asks for level 3, and only from there on for SLI. */
static uint32_t why_no_conditional(struct setting setting)
{
    if (setting.level < 3)
        return WHY_LEVEL;
    return setting.sli ? WHY_NONE : WHY_SLI;
}

/* W11, W24, X6: why a command may not be used at a setting that is not refused; WHY_NONE where it may. */
static uint32_t why_not(struct setting setting, uint32_t number)
{
    bool nv04 = setting.mode == MODE_NV04;

    switch (number) {
    case READING_INCREASING:
        return WHY_NONE;
    case READING_NON_INCREASING:
        /* W2, W21: from level 1 on. */
        return setting.level >= 1 ? WHY_NONE : WHY_LEVEL;
    case READING_SLI:
        return why_no_conditional(setting);
    case READING_LONG:
        /* W5, W21, W22: in IB mode alone. That a low level has no such mode is no matter of the form. */
        return nv04 ? WHY_MODE : WHY_NONE;
    case READING_OLD_JUMP:
        /* W6, W22: in NV04-style alone. */
        return nv04 ? WHY_NONE : WHY_MODE;
    case READING_RETURN:
    case READING_JUMP:
    case READING_CALL:
        return why_no_flow(setting);
    default:
        /* W12, W20, X5, X6: reserved words and readings that are refusals are no commands, whatever why they
         * may have brought. */
        return WHY_FORM;
    }
}

static struct reading reading(uint32_t number, uint32_t value0, uint32_t value1, uint32_t value2)
{
    return (struct reading){number, {value0, value1, value2}, WHY_NONE};
}

/* W1, W2, W3, W4, W5, W6, W7, W8, W9: the reading of a word that has the form `number`. */
static struct reading take_apart(uint32_t number, uint32_t word, uint32_t next)
{
    /* W1, W2, W5, W9: the numbers that these forms have in the same bits. Times 4 the method is a byte
     * number. */
    uint32_t count = bits(word, 28, 18);
    uint32_t subchannel = bits(word, 15, 13);
    uint32_t method = 4 * bits(word, 12, 2);

    switch (number) {
    case READING_INCREASING:
    case READING_NON_INCREASING:
        return reading(number, count, subchannel, method);
    case READING_SLI:
        /* W3: the mask is in bits 15-4. */
        return reading(number, bits(word, 15, 4), 0, 0);
    case READING_LONG:
        /* W5, W14: the count is in bits 23-0 of the next word, whatever stands above them. */
        return reading(number, subchannel, method, bits(next, 23, 0));
    case READING_OLD_JUMP:
        /* W6, W9: the target is in bits 28-2. */
        return reading(number, 4 * bits(word, 28, 2), 0, 0);
    case READING_JUMP:
    case READING_CALL:
        /* W7, W8, W9: the target is in bits 31-2. */
        return reading(number, 4 * bits(word, 31, 2), 0, 0);
    default:
        return reading(number, 0, 0, 0);
    }
}

/* W12, W24: the reading at a setting that is not refused, where a form that may not be used is reserved. */
static struct reading read_accepted(struct setting setting, uint32_t word, uint32_t next)
{
    uint32_t number = form(word);
    uint32_t why = why_not(setting, number);

    if (why != WHY_NONE)
        return (struct reading){READING_RESERVED, {0, 0, 0}, why};
    return take_apart(number, word, next);
}

/* R22, W13: a word by itself. */
struct reading model_read(struct setting setting, uint32_t word, uint32_t next)
{
    uint32_t refusal = model_setting_refusal(setting);

    if (refusal != REFUSAL_NONE)
        return reading(READING_REFUSED, refusal, 0, 0);
    return read_accepted(setting, word, next);
}

/* R23, W13, W16: a word at a place of lent words. */
struct reading model_read_at(struct setting setting, const uint32_t *words, size_t count, uint64_t place)
{
    uint32_t refusal = model_setting_refusal(setting);
    uint32_t next;

    /* R8, R23: SIZE comes last. */
    if (refusal == REFUSAL_NONE && count > SIZE_LIMIT)
        refusal = REFUSAL_SIZE;
    if (refusal != REFUSAL_NONE)
        return reading(READING_REFUSED, refusal, 0, 0);
    /* W16: past the last word nothing is read, and behind it a next word counts as 0. */
    if (place >= count)
        return reading(READING_PAST, 0, 0, 0);
    next = count - place > 1 ? words[place + 1] : 0;
    return read_accepted(setting, words[place], next);
}

static bool fits(uint32_t number, unsigned width)
{
    return number <= UINT32_MAX >> (32 - width);
}

/* X4: methods and targets, by their byte numbers; `width` counts the two low bits too. */
static bool fits_by_four(uint32_t number, unsigned width)
{
    return number % 4 == 0 && fits(number, width);
}

/* R10, X4: whether no number of a command is too wide, and each method and target in it a multiple of 4. */
static bool fields_fit(struct reading command)
{
    const uint32_t *value = command.value;

    switch (command.number) {
    case READING_INCREASING:
    case READING_NON_INCREASING:
        return fits(value[0], 11) && fits(value[1], 3) && fits_by_four(value[2], 13);
    case READING_SLI:
        return fits(value[0], 12);
    case READING_LONG:
        return fits(value[0], 3) && fits_by_four(value[1], 13) && fits(value[2], 24);
    case READING_OLD_JUMP:
        return fits_by_four(value[0], 29);
    case READING_JUMP:
    case READING_CALL:
        return fits_by_four(value[0], 32);
    default:
        /* X5: the return has no fields, and neither has what is no command. */
        return true;
    }
}

/* R21, R24, X4: the writer's order. A field that is wrong is told even where the form may not be used. */
static uint32_t write_refusal(struct setting setting, struct reading command, uint32_t count, size_t room)
{
    uint32_t refusal = model_setting_refusal(setting);

    if (refusal != REFUSAL_NONE)
        return refusal;
    if (!fields_fit(command))
        return REFUSAL_FIELD;
    /* R12: not at this setting, or no command at all. */
    if (why_not(setting, command.number) != WHY_NONE)
        return REFUSAL_FORM;
    /* R11: no room for the words. */
    if (room < count)
        return REFUSAL_ROOM;
    return REFUSAL_NONE;
}

/* W9, X1: the first word of a command whose fields fit. A method's byte number is in place at bits 12-2. */
static uint32_t put_together(struct reading command)
{
    const uint32_t *value = command.value;

    switch (command.number) {
    case READING_INCREASING:
        return value[0] << 18 | value[1] << 13 | value[2];
    case READING_NON_INCREASING:
        return UINT32_C(2) << 29 | value[0] << 18 | value[1] << 13 | value[2];
    case READING_SLI:
        return UINT32_C(0x0001) << 16 | value[0] << 4;
    case READING_LONG:
        return UINT32_C(0x0003) << 16 | value[0] << 13 | value[1];
    case READING_OLD_JUMP:
        return UINT32_C(1) << 29 | value[0];
    case READING_JUMP:
        return value[0] | 1;
    case READING_CALL:
        return value[0] | 2;
    default:
        /* W4: the one command left is the return. */
        return 0x00020000;
    }
}

/* X1, X2: the words go to the front of the output, and the rest of it stays. */
struct written model_write(struct setting setting, struct reading command, uint32_t *out, size_t room)
{
    /* X1, X2: a long form has its count word too; parameters are not written. */
    uint32_t count = command.number == READING_LONG ? 2 : 1;
    uint32_t refusal = write_refusal(setting, command, count, room);
    uint32_t why = refusal == REFUSAL_FORM ? why_not(setting, command.number) : WHY_NONE;

    /* R31, X6: with a refusal the output stays. No other than FORM says why, also where FORM would apply. */
    if (refusal != REFUSAL_NONE)
        return (struct written){refusal, 0, why};
    out[0] = put_together(command);
    /* X1, X3: the count fits 24 bits, so that 0 stands above it. */
    if (count == 2)
        out[1] = command.value[2];
    return (struct written){REFUSAL_NONE, count, WHY_NONE};
}

/* W18: whether a level has a method. The numbers here are byte numbers; that of a large number has more than
 * 32 bits. */
bool model_present(uint32_t level, uint32_t number)
{
    uint64_t method = UINT64_C(4) * number;

    if (method == 0x00 || method >= 0x100)
        return true;
    if (method >= 0x10 && method <= 0x24)
        return level >= 5;
    if (method == 0x50)
        return level >= 1;
    if (method >= 0x60 && method <= 0x6c)
        return level >= 2;
    if (method == 0x80)
        return level >= 3;
    return false;
}

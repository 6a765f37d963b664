/* What spoils a submission: damage, mostly in view of one reason, and what makes it be refused. */
#include <string.h>

#include "gate_draw.h"

/* ---- Places ---- */

static uint32_t draw_place(struct draw *draw, const struct given *given)
{
    return draw_below(draw, word_count(given));
}

/* A marked place that fits, looked for from a drawn one on; NOWHERE where there is none. */
static uint32_t draw_start(struct draw *draw, const struct given *given,
                           bool (*fits)(const struct given *, uint32_t))
{
    uint32_t count = word_count(given);
    uint32_t from = draw_place(draw, given);

    for (uint32_t i = 0; i < count; i++) {
        uint32_t place = (from + i) % count;

        if (given->map[place] != 0 && fits(given, place))
            return place;
    }
    return NOWHERE;
}

static bool is_main(const struct given *given, uint32_t place)
{
    return (given->map[place] & STATE_MAIN) != 0;
}

static bool is_inside(const struct given *given, uint32_t place)
{
    return (given->map[place] & STATE_SUBROUTINE) != 0;
}

static bool is_any(const struct given *given, uint32_t place)
{
    return is_main(given, place) || is_inside(given, place);
}

static bool is_jump_inside(const struct given *given, uint32_t place)
{
    return is_inside(given, place) && is_jump(given, place);
}

static bool has_target(const struct given *given, uint32_t place)
{
    return is_jump(given, place) || is_call(given, place);
}

/* A run with parameters, which are all there. */
static bool has_parameters(const struct given *given, uint32_t place)
{
    uint32_t count = command_of(given, place).value[0];

    return is_run(given, place) && count != 0 && count < word_count(given) - place;
}

/* An increasing run that goes past 0x1ffc with another method: it has two parameters or more. */
static bool can_wrap(const struct given *given, uint32_t place)
{
    struct reading command = command_of(given, place);

    return command.number == READING_INCREASING && command.value[0] >= 2 && has_parameters(given, place);
}

/* How many parameters a command at a place can have. */
static uint32_t most_parameters(const struct given *given, uint32_t place)
{
    uint32_t behind = word_count(given) - place - 1;

    return behind < METHODS ? behind : METHODS - 1;
}

/* An increasing run that goes past 0x1ffc with more parameters, for which there are words. */
static bool can_wrap_longer(const struct given *given, uint32_t place)
{
    struct reading command = command_of(given, place);

    return command.number == READING_INCREASING &&
           command.value[2] / 4 + most_parameters(given, place) > METHODS;
}

/* ---- Damage in view of no reason ---- */

static void damage_mark(struct draw *draw, struct given *given)
{
    uint32_t place = draw_place(draw, given);

    given->map[place] ^= (uint8_t)(1 + draw_below(draw, 3));
}

static void damage_word(struct draw *draw, struct given *given)
{
    uint32_t place = draw_place(draw, given);

    set_word(given, place, draw_wild_word(draw, word_count(given)));
}

/* One bit of a command. */
static void damage_bit(struct draw *draw, struct given *given)
{
    uint32_t place = draw_start(draw, given, is_any);
    uint32_t bit = UINT32_C(1) << draw_below(draw, 32);

    if (place != NOWHERE)
        set_word(given, place, word_of(given, place) ^ bit);
}

static void damage_permit_bit(struct draw *draw, struct given *given)
{
    uint32_t bit = draw_below(draw, 8 * PERMIT_BYTES);

    given->permit[bit / 8] ^= (uint8_t)(1U << bit % 8);
}

/* Up to three of the last words are gone. */
static void damage_cut(struct draw *draw, struct given *given)
{
    uint32_t count = word_count(given);

    set_count(given, count - 1 - draw_below(draw, count < 3 ? count : 3));
}

static void damage_drop(struct draw *draw, struct given *given)
{
    uint32_t place = draw_place(draw, given);
    uint32_t after = word_count(given) - place - 1;

    memmove(given->words + 4 * place, given->words + 4 * (place + 1), 4 * after);
    memmove(given->map + place, given->map + place + 1, after);
    set_count(given, place + after);
}

/* One more word, marked or not, before the others from a place on. */
static void insert(struct draw *draw, struct given *given, uint32_t place)
{
    uint32_t count = word_count(given);

    memmove(given->words + 4 * (place + 1), given->words + 4 * place, 4 * (count - place));
    memmove(given->map + place + 1, given->map + place, count - place);
    set_count(given, count + 1);
    set_word(given, place, draw_wild_word(draw, count + 1));
    given->map[place] = (uint8_t)draw_below(draw, 4);
}

static void damage_insert(struct draw *draw, struct given *given)
{
    insert(draw, given, draw_place(draw, given));
}

static void damage_append(struct draw *draw, struct given *given)
{
    insert(draw, given, word_count(given));
}

/* ---- Damage in view of a reason ---- */

/* G1: a byte of 4 or 255, one that has the right low bits, or any; now and then another. */
static void damage_map_byte(struct draw *draw, struct given *given)
{
    do {
        uint32_t place = draw_place(draw, given);
        uint32_t bit = 4U << draw_below(draw, 6);
        uint32_t bytes[] = {4, 255, given->map[place] | bit, 4 + draw_below(draw, 252)};

        given->map[place] = (uint8_t)draw_among(draw, bytes, 4);
    } while (draw_once_in(draw, 4));
}

/* G2: place 0 is no start, or inside alone. */
static void damage_first(struct draw *draw, struct given *given)
{
    given->map[0] = draw_once_in(draw, 2) ? 0 : STATE_SUBROUTINE;
}

/* A start, if there is one, gets another word. */
static void replace(struct given *given, uint32_t place, uint32_t word)
{
    if (place != NOWHERE)
        set_word(given, place, word);
}

/* G3, G40: a word that is reserved, for any of the whys: of no form; the long form; a conditional without
 * SLI, or below its level; and what low levels lack. */
static void damage_reserved(struct draw *draw, struct given *given)
{
    static const uint32_t words[] = {0x00000003, 0x80000000, 0x00020004, 0x00010008, 0xe0000000, 0x60000000,
                                     UINT32_MAX, 0x00030100, 0x0003fffc, 0x00034000, 0x00010050, 0x0001fff0,
                                     0x00010000, 0x00010020, 0x40000100, 0x00000001, 0x00000002, 0x00020000};
    struct setting setting = {given->level, MODE_NV04, given->sli != 0};
    uint32_t word;

    do
        word = draw_among(draw, words, sizeof words / sizeof words[0]);
    while (model_read(setting, word, 0).number != READING_RESERVED);
    replace(given, draw_start(draw, given, is_any), word);
}

/* G4, G26: a call inside, of a start that would do, of the end, or past it. */
static void damage_call(struct draw *draw, struct given *given)
{
    uint32_t count = word_count(given);
    uint32_t targets[] = {find_mark(given, 0, STATE_SUBROUTINE), count, count + 1};
    uint32_t target = draw_among(draw, targets, 3);

    replace(given, draw_start(draw, given, is_inside), 4 * target | 2);
}

/* G5: a return in main. */
static void damage_return(struct draw *draw, struct given *given)
{
    replace(given, draw_start(draw, given, is_main), 0x00020000);
}

/* G6: too many parameters, by one if there can be so many, or by any number. */
static void damage_parameters(struct draw *draw, struct given *given)
{
    uint32_t place = draw_start(draw, given, is_run);
    uint32_t past = word_count(given) - place;
    uint32_t counts[] = {past, METHODS - 1, draw_below(draw, METHODS)};
    uint32_t count = draw_among(draw, counts, 3) % METHODS;

    if (place != NOWHERE)
        set_word(given, place, (word_of(given, place) & 0xe003ffff) | count << 18);
}

/* G7: a method that some levels lack, permitted or not. */
static void damage_method(struct draw *draw, struct given *given)
{
    static const uint32_t methods[] = {0x00, 0x04, 0x0c, 0x10, 0x24, 0x28, 0x4c, 0x50, 0x54,
                                       0x5c, 0x60, 0x6c, 0x70, 0x7c, 0x80, 0x84, 0xfc};
    uint32_t place = draw_start(draw, given, has_parameters);
    uint32_t method = draw_among(draw, methods, sizeof methods / sizeof methods[0]);
    bool is_permitted = draw_once_in(draw, 2);

    if (place == NOWHERE)
        return;
    set_word(given, place, (word_of(given, place) & 0xffffe003) | method);
    if (is_permitted)
        permit_run(given, place);
}

/* G8: a clear bit for any of a run's methods. */
static void damage_permit(struct draw *draw, struct given *given)
{
    uint32_t place = draw_start(draw, given, has_parameters);
    struct reading command;
    uint32_t method;

    if (place == NOWHERE)
        return;
    command = command_of(given, place);
    method = command.value[2] / 4;
    if (command.number == READING_INCREASING)
        method += draw_below(draw, command.value[0]);
    set_permit(given, command.value[1], method % METHODS, false);
}

/* G13: a method from which a run goes past 0x1ffc, by one parameter or by any number, permitted or not. */
static void damage_wrap(struct draw *draw, struct given *given)
{
    uint32_t place = draw_start(draw, given, can_wrap);
    bool is_permitted = draw_once_in(draw, 2);
    uint32_t count, past, method;

    if (place == NOWHERE)
        return;
    count = command_of(given, place).value[0];
    past = draw_once_in(draw, 2) ? 1 : 1 + draw_below(draw, count - 1);
    method = METHODS - (count - past);
    set_word(given, place, (word_of(given, place) & 0xffffe003) | method << 2);
    if (is_permitted)
        permit_run(given, place);
}

/* G9, G13: so many parameters that a run goes past 0x1ffc, by one or by any number; what becomes a parameter
 * may be marked. */
static void damage_longer(struct draw *draw, struct given *given)
{
    uint32_t place = draw_start(draw, given, can_wrap_longer);
    uint32_t least, more, count;

    if (place == NOWHERE)
        return;
    least = METHODS + 1 - command_of(given, place).value[2] / 4;
    more = draw_below(draw, most_parameters(given, place) + 1 - least);
    count = least + (draw_once_in(draw, 2) ? 0 : more);
    set_word(given, place, (word_of(given, place) & 0xe003ffff) | count << 18);
}

/* G9: a marked parameter. */
static void damage_parameter(struct draw *draw, struct given *given)
{
    uint32_t place = draw_start(draw, given, has_parameters);
    uint32_t mark = 1 + draw_below(draw, 3);

    if (place != NOWHERE)
        given->map[place + 1 + draw_below(draw, command_of(given, place).value[0])] = (uint8_t)mark;
}

/* G10: a target too far, by one word or by many. */
static void damage_target(struct draw *draw, struct given *given)
{
    uint32_t place = draw_start(draw, given, has_target);
    uint32_t count = word_count(given);
    uint32_t targets[] = {count + 1, count + 2 + draw_below(draw, 64), 0x07ffffff, 0x3fffffff};
    uint32_t target = draw_among(draw, targets, 4);

    if (place != NOWHERE)
        set_target(given, place, target);
}

/* G11: another target, which may be a parameter, no start at all, or one of another state. */
static void damage_next(struct draw *draw, struct given *given)
{
    uint32_t place = draw_start(draw, given, has_target);
    uint32_t target = draw_place(draw, given);

    if (place != NOWHERE)
        set_target(given, place, target);
}

/* G11, G27: no mark where a call comes back to. */
static void damage_after_call(struct draw *draw, struct given *given)
{
    uint32_t place = draw_start(draw, given, is_call);

    if (place != NOWHERE && place + 1 < word_count(given))
        given->map[place + 1] &= (uint8_t)~STATE_MAIN;
}

/* G12: the end inside, by a call or a jump. */
static void damage_end(struct draw *draw, struct given *given)
{
    bool by_call = draw_once_in(draw, 2);
    uint32_t place = draw_start(draw, given, by_call ? is_call : is_jump_inside);

    if (place != NOWHERE)
        set_target(given, place, word_count(given));
}

/* G12: the same by the last command, as the last starts become a subroutine's too. */
static void damage_last(struct draw *draw, struct given *given)
{
    for (uint32_t place = draw_place(draw, given); place < word_count(given); place++)
        if (given->map[place] != 0)
            given->map[place] |= STATE_SUBROUTINE;
}

static void (*const damages[])(struct draw *, struct given *) = {
    damage_mark,      damage_word,       damage_bit,      damage_permit_bit, damage_cut,      damage_drop,
    damage_insert,    damage_append,     damage_map_byte, damage_first,      damage_reserved, damage_call,
    damage_return,    damage_parameters, damage_method,   damage_permit,     damage_wrap,     damage_longer,
    damage_parameter, damage_target,     damage_next,     damage_after_call, damage_end,      damage_last,
};

unsigned damage_count(void)
{
    return sizeof damages / sizeof damages[0];
}

void damage(struct draw *draw, struct given *given, unsigned way)
{
    if (word_count(given) != 0)
        damages[way](draw, given);
}

/* ---- Refusals ---- */

/* R1: levels that a narrower type would cut to good ones, too. */
static void refuse_level(struct draw *draw, struct given *given)
{
    static const uint32_t levels[] = {6, 7, 255, 256, 259, 0x10005, 0x80000000, UINT32_MAX};

    given->level = draw_among(draw, levels, sizeof levels / sizeof levels[0]);
}

/* R4, G32: SLI on, by any number, at a level that lacks it. */
static void refuse_sli(struct draw *draw, struct given *given)
{
    given->level = draw_below(draw, 3);
    given->sli = draw_enabled(draw);
}

/* R9: a part word, the last one or one more. */
static void refuse_words(struct draw *draw, struct given *given)
{
    uint32_t count = word_count(given);

    set_word(given, count, draw_word(draw));
    if (count != 0 && draw_once_in(draw, 2))
        given->words_length -= 4;
    given->words_length += 1 + draw_below(draw, 3);
}

/* R9: one byte too many or too few, or none. */
static void refuse_map(struct draw *draw, struct given *given)
{
    size_t length = given->map_length;

    given->map[length] = (uint8_t)draw_below(draw, 4);
    if (length == 0 || draw_once_in(draw, 2))
        given->map_length = length + 1;
    else
        given->map_length = draw_once_in(draw, 4) ? 0 : length - 1;
}

/* R9: permit lists of other lengths. */
static void refuse_permit(struct draw *draw, struct given *given)
{
    static const uint32_t lengths[] = {0, 1, 256, 1024, 2047, 2049, 2052, 4096};

    given->permit_length = draw_among(draw, lengths, sizeof lengths / sizeof lengths[0]);
}

/* R28: one way or several. A level above 5 comes last, so that it may have any SLI setting. */
void refuse(struct draw *draw, struct given *given)
{
    static void (*const ways[])(struct draw *, struct given *) = {refuse_words, refuse_map, refuse_permit,
                                                                  refuse_sli, refuse_level};
    uint32_t alone = UINT32_C(1) << draw_below(draw, 5);
    uint32_t chosen = draw_once_in(draw, 2) ? alone : 1 + draw_below(draw, 31);

    for (unsigned i = 0; i < 5; i++)
        if ((chosen >> i & 1) != 0)
            ways[i](draw, given);
}

/* A submission in room of its own: its words, commands and permitted methods, one at a time. */
#include <string.h>

#include "gate_draw.h"

struct submission submission_of(const struct given *given)
{
    return (struct submission){given->level, given->sli,        given->words,  given->words_length,
                               given->map,   given->map_length, given->permit, given->permit_length};
}

/* ---- Words ---- */

uint32_t word_count(const struct given *given)
{
    return (uint32_t)(given->words_length / 4);
}

void set_count(struct given *given, uint32_t count)
{
    given->words_length = 4 * (size_t)count;
    given->map_length = count;
}

/* W17: a word's bytes, the lowest first. */
uint32_t word_of(const struct given *given, uint32_t place)
{
    uint32_t word = 0;

    for (unsigned i = 0; i < 4; i++)
        word |= (uint32_t)given->words[4 * place + i] << 8 * i;
    return word;
}

/* W17: the same the other way. */
void set_word(struct given *given, uint32_t place, uint32_t word)
{
    for (unsigned i = 0; i < 4; i++)
        given->words[4 * place + i] = (uint8_t)(word >> 8 * i);
}

/* ---- Commands ---- */

/* G21: a word by itself, in NV04-style. */
struct reading command_of(const struct given *given, uint32_t place)
{
    struct setting setting = {given->level, MODE_NV04, given->sli != 0};

    return model_read(setting, word_of(given, place), 0);
}

bool is_jump(const struct given *given, uint32_t place)
{
    uint32_t number = command_of(given, place).number;

    return number == READING_OLD_JUMP || number == READING_JUMP;
}

bool is_call(const struct given *given, uint32_t place)
{
    return command_of(given, place).number == READING_CALL;
}

bool is_run(const struct given *given, uint32_t place)
{
    uint32_t number = command_of(given, place).number;

    return number == READING_INCREASING || number == READING_NON_INCREASING;
}

/* W6, W7, W8: an old jump has bits 28-2 for it. */
void set_target(struct given *given, uint32_t place, uint32_t target)
{
    struct reading command = command_of(given, place);

    if (command.number == READING_OLD_JUMP)
        set_word(given, place, 0x20000000 | (4 * target & 0x1fffffff));
    else
        set_word(given, place, 4 * target | (command.number == READING_JUMP ? 1 : 2));
}

/* ---- The permit list ---- */

void fill_permit(struct given *given, uint8_t fill)
{
    given->permit_fill = fill;
    given->permit_length = PERMIT_BYTES;
    memset(given->permit, fill, sizeof given->permit);
}

/* G23: the bit of a method, given by its number. */
void set_permit(struct given *given, uint32_t subchannel, uint32_t method, bool is_permitted)
{
    uint8_t *byte = &given->permit[256 * subchannel + method / 8];
    uint8_t bit = (uint8_t)(1U << method % 8);

    *byte = is_permitted ? *byte | bit : *byte & (uint8_t)~bit;
}

/* G29: each method that a run goes to. */
void permit_run(struct given *given, uint32_t place)
{
    struct reading command = command_of(given, place);
    uint32_t method = command.value[2] / 4;
    uint32_t rise = command.number == READING_INCREASING ? 1 : 0;

    for (uint32_t i = 0; i < command.value[0]; i++)
        set_permit(given, command.value[1], (method + rise * i) % METHODS, true);
}

/* ---- The map ---- */

uint32_t find_mark(const struct given *given, uint32_t from, uint8_t mark)
{
    uint32_t count = word_count(given);

    for (uint32_t i = 0; i < count && i < 4096; i++) {
        uint32_t place = (from + i) % count;

        if ((given->map[place] & mark) == mark)
            return place;
    }
    return NOWHERE;
}

/* H5: the exact map. */
struct path give_exact_map(struct given *given)
{
    static struct pair room[2 * SIZE_LIMIT];
    struct submission submission = submission_of(given);

    return model_path(&submission, given->map, room);
}

/* ---- Rooms ---- */

void fill_room(uint64_t *room, size_t length)
{
    for (size_t i = 0; i < length; i++)
        room[i] = UNTOUCHED;
}

#include "repair.h"

/* ---- The search ---- */

/* R21, R36: the search's order. A part word is no word, and counts for the size alone. */
static uint32_t search_refusal(const struct search *search)
{
    /* R8: too many bytes, by a part word too. */
    if (search->words_length > 4 * (size_t)SIZE_LIMIT)
        return REFUSAL_SIZE;
    /* R11: two entries a word. */
    if (search->room_length < search->words_length / 4 * 2)
        return REFUSAL_ROOM;
    return REFUSAL_NONE;
}

/* W17: how many whole words there are. */
static uint32_t word_total(const struct search *search)
{
    return (uint32_t)(search->words_length / 4);
}

/* W17: the word at a place, read by itself. Only the long form would look at the word behind it, and of that
 * form the search asks nothing but that it is one. */
static struct reading reading_at(const struct search *search, uint32_t place)
{
    uint32_t word = 0;

    for (unsigned i = 4; i-- != 0;)
        word = word << 8 | search->words[4 * (size_t)place + i];
    return model_read(search->setting, word, 0);
}

/* G23: whether a method, given by its number, is permitted. Past the end of the list none is. */
static bool is_permitted(const struct search *search, uint32_t subchannel, uint32_t method)
{
    uint32_t bit = METHODS * subchannel + method;

    return bit / 8 < search->permit_length && (search->permit[bit / 8] & 1U << bit % 8) != 0;
}

/* G6, G7, G8, G13, G29: whether a run's parameters are all there, and each goes to a method that isn't past
 * the last, that the level has and the list permits. In which order that is asked makes no difference to the
 * search. */
static bool is_good_run(const struct search *search, uint32_t place, struct reading run)
{
    uint32_t method = run.value[2] / 4;

    if (place + run.value[0] >= word_total(search))
        return false;
    for (uint32_t left = run.value[0]; left != 0; left--) {
        /* G13: 0x1ffc had its parameter, and there is another. */
        if (method == METHODS)
            return false;
        if (!model_present(search->setting.level, method) || !is_permitted(search, run.value[1], method))
            return false;
        if (run.number == READING_INCREASING)
            method++;
    }
    return true;
}

/* Numbers of pairs; those of the end and of places past it too. */
struct numbers {
    uint32_t count;
    uint32_t pair[2];
};

static const struct numbers no_numbers = {0, {0, 0}};

/* G3, G4, G5, G27: the next pairs of one that has none of the reasons 3 to 8 and 13; of one that has, none.
 * What reads as a long form has reason 3 in IB mode too, and so does what a refused setting reads. */
static struct numbers numbers_after(const struct search *search, uint32_t pair)
{
    uint32_t inside = pair % 2;
    struct reading command = reading_at(search, pair / 2);
    uint32_t target = command.value[0] / 4 * 2;

    switch (command.number) {
    case READING_INCREASING:
    case READING_NON_INCREASING:
        if (!is_good_run(search, pair / 2, command))
            return no_numbers;
        return (struct numbers){1, {pair + 2 + 2 * command.value[0], 0}};
    case READING_SLI:
        return (struct numbers){1, {pair + 2, 0}};
    case READING_OLD_JUMP:
    case READING_JUMP:
        return (struct numbers){1, {target + inside, 0}};
    case READING_CALL:
        /* G4, G27: in main alone; first inside, then back. */
        return inside == 1 ? no_numbers : (struct numbers){2, {target + 1, pair + 2}};
    default:
        return no_numbers;
    }
}

/* G10, G12, H2: the same, but none where one of them has reason 10 or 12. The end in main has the number of
 * entries that are asked for; what comes after that number is the end inside, or past the end. */
static struct numbers numbers_reached(const struct search *search, uint32_t pair)
{
    struct numbers next = numbers_after(search, pair);

    for (uint32_t i = 0; i < next.count; i++)
        if (next.pair[i] > 2 * word_total(search))
            return no_numbers;
    return next;
}

/* H11: the lower half of a pair's entry is 0 as long as it is not found. */
static bool is_found(const struct search *search, uint32_t pair)
{
    return (uint32_t)search->room[pair] != 0;
}

/* H11: a pair's entry, and the entry of the turn in which it is found. */
static void find(const struct search *search, uint32_t turn, uint32_t pair, uint32_t from)
{
    search->room[pair] |= from + 1;
    search->room[turn] |= (uint64_t)pair << 32;
}

/* R36, H9, H11: the search. The upper halves are the queue. */
struct outcome model_search(const struct search *search)
{
    uint32_t refusal = search_refusal(search);
    uint32_t end = 2 * word_total(search);
    uint32_t count = 0;

    /* R31: nothing is written. */
    if (refusal != REFUSAL_NONE)
        return (struct outcome){refusal, 0};
    for (uint32_t i = 0; i < end; i++)
        search->room[i] = 0;
    /* H9: where there are words, the first is found from itself. */
    if (end != 0)
        find(search, count++, 0, 0);
    for (uint32_t taken = 0; taken < count; taken++) {
        uint32_t from = (uint32_t)(search->room[taken] >> 32);
        struct numbers next = numbers_reached(search, from);

        for (uint32_t i = 0; i < next.count; i++)
            if (next.pair[i] != end && !is_found(search, next.pair[i]))
                find(search, count++, next.pair[i], from);
    }
    return (struct outcome){REFUSAL_NONE, count};
}

/* ---- The repair ---- */

/* G32, H18: as the gatekeeper takes it; the map that is there makes no difference. */
static struct submission submission_without_map(const struct repair *repair)
{
    return (struct submission){.level = repair->level,
                               .sli = repair->sli,
                               .words = repair->words,
                               .words_length = repair->words_length,
                               .permit = repair->permit,
                               .permit_length = repair->permit_length};
}

/* R21, R37: the repair's order. */
static uint32_t repair_refusal(const struct repair *repair)
{
    struct setting setting = {repair->level, MODE_NV04, repair->sli != 0};
    uint32_t refusal = model_setting_refusal(setting);
    size_t words = repair->words_length / 4;

    if (refusal != REFUSAL_NONE)
        return refusal;
    /* R8: too many bytes, by a part word too. */
    if (repair->words_length > 4 * (size_t)REPAIR_LIMIT)
        return REFUSAL_SIZE;
    /* R9: of the three lengths one is wrong. */
    if (repair->words_length % 4 != 0 || repair->map_length != words ||
        repair->permit_length != PERMIT_BYTES)
        return REFUSAL_LENGTH;
    /* R11: one of the rooms is too short, needed or not. */
    if (repair->list_length < words || repair->work_length < 2 * words)
        return REFUSAL_ROOM;
    return REFUSAL_NONE;
}

/* H13: the place, then the two bytes. */
uint64_t model_change(uint32_t place, uint8_t old_byte, uint8_t new_byte)
{
    return (uint64_t)new_byte << 40 | (uint64_t)old_byte << 32 | place;
}

/* H12, H13: the exact map goes over the author's, and what it changes into the list. */
static uint32_t overwrite(const struct repair *repair, const uint8_t *exact)
{
    uint32_t count = 0;

    for (uint32_t place = 0; place < repair->map_length; place++) {
        if (repair->map[place] == exact[place])
            continue;
        repair->list[count++] = model_change(place, repair->map[place], exact[place]);
        repair->map[place] = exact[place];
    }
    return count;
}

/* R37, H12, H13, H14: the repair, through the path rule's own map and not through the search. */
struct outcome model_repair(const struct repair *repair)
{
    static uint8_t exact[REPAIR_LIMIT];
    static struct pair room[2 * REPAIR_LIMIT];
    uint32_t refusal = repair_refusal(repair);
    struct submission submission = submission_without_map(repair);

    /* R31: nothing is written. */
    if (refusal != REFUSAL_NONE)
        return (struct outcome){refusal, 0};
    model_path(&submission, exact, room);
    /* H14: nothing else is told of the work room. */
    for (size_t i = 0; i < repair->words_length / 4 * 2; i++)
        repair->work[i] = 0;
    return (struct outcome){REFUSAL_NONE, overwrite(repair, exact)};
}

/* ---- Numbers for C ---- */

/* H18: a refusal or a count, the other being 0. */
uint64_t model_repair_number(struct outcome outcome)
{
    return (uint64_t)outcome.refusal << 8 | (uint64_t)outcome.count << 24;
}

/* W19: what stands above the reading's number, by the places that the values have in a reading. */
static uint64_t values_number(struct reading reading)
{
    const uint32_t *value = reading.value;

    switch (reading.number) {
    case READING_INCREASING:
    case READING_NON_INCREASING:
        return (uint64_t)value[0] << 40 | (uint64_t)value[1] << 37 | (uint64_t)value[2] << 24;
    case READING_LONG:
        return (uint64_t)value[2] << 40 | (uint64_t)value[0] << 37 | (uint64_t)value[1] << 24;
    case READING_SLI:
    case READING_OLD_JUMP:
    case READING_JUMP:
    case READING_CALL:
        return (uint64_t)value[0] << 32;
    case READING_REFUSED:
        return (uint64_t)value[0] << 8;
    case READING_RESERVED:
        return (uint64_t)reading.why << 16;
    default:
        return 0;
    }
}

/* W19: the whole number. */
uint64_t model_reading_number(uint32_t level, uint32_t mode, uint32_t sli, uint32_t word, uint32_t next)
{
    struct reading reading = model_read((struct setting){level, mode, sli != 0}, word, next);

    return values_number(reading) | reading.number;
}

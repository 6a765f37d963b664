#include "gate.h"

/* ---- Refusals ---- */

/* G21, G32: NV04-style, with SLI as a number. */
static struct setting setting_of(const struct submission *submission)
{
    return (struct setting){submission->level, MODE_NV04, submission->sli != 0};
}

/* R21, R28: the gatekeeper's order. In NV04-style a setting meets LEVEL and SLI alone. */
static uint32_t submission_refusal(const struct submission *submission)
{
    uint32_t refusal = model_setting_refusal(setting_of(submission));

    if (refusal != REFUSAL_NONE)
        return refusal;
    /* R8: too many bytes, by a part word too. */
    if (submission->words_length > 4 * (size_t)SIZE_LIMIT)
        return REFUSAL_SIZE;
    /* R9: of the three lengths one is wrong. */
    if (submission->words_length % 4 != 0 || submission->map_length != submission->words_length / 4 ||
        submission->permit_length != PERMIT_BYTES)
        return REFUSAL_LENGTH;
    return REFUSAL_NONE;
}

/* ---- One pair ---- */

/* G21: places count words. */
struct code model_code(const struct submission *submission)
{
    return (struct code){setting_of(submission), submission->words, (uint32_t)(submission->words_length / 4),
                         submission->permit};
}

/* W17: the lowest byte first. */
static uint32_t word_at(const struct code *code, uint32_t place)
{
    const uint8_t *bytes = code->words + 4 * (size_t)place;

    return bytes[0] | (uint32_t)bytes[1] << 8 | (uint32_t)bytes[2] << 16 | (uint32_t)bytes[3] << 24;
}

/* G29: the method of parameter k. */
static uint32_t method_of(struct reading command, uint32_t k)
{
    uint32_t method = command.value[2] / 4;

    return command.number == READING_INCREASING ? (method + k) % METHODS : method;
}

/* G23: the bit of a method, given by its number. */
static bool is_permitted(const struct code *code, uint32_t subchannel, uint32_t method)
{
    return (code->permit[METHOD_BYTES * subchannel + method / 8] >> method % 8 & 1) != 0;
}

/* G13: whether a run would go past the last method, on to method 0. With count 0 it can't: a method's number
 * alone is below that. */
static bool is_wrapping(struct reading command)
{
    return command.number == READING_INCREASING && command.value[2] / 4 + command.value[0] > METHODS;
}

/* G6, G7, G8, G13, G26: reasons 6, 13, 7 and 8, each of them for all parameters before the next. */
static uint32_t run_reason(const struct code *code, uint32_t place, struct reading command)
{
    uint32_t count = command.value[0];

    if (count > code->count - (place + 1))
        return REASON_PARAMETERS;
    if (is_wrapping(command))
        return REASON_WRAPS;
    for (uint32_t k = 0; k < count; k++)
        if (!model_present(code->setting.level, method_of(command, k)))
            return REASON_NON_CACHE;
    for (uint32_t k = 0; k < count; k++)
        if (!is_permitted(code, command.value[1], method_of(command, k)))
            return REASON_PERMIT;
    return REASON_NONE;
}

/* G3, G4, G5: reasons 3 to 5, and those of a run. The long form is reserved in NV04-style. */
static uint32_t command_reason(const struct code *code, struct pair pair, struct reading command)
{
    switch (command.number) {
    case READING_INCREASING:
    case READING_NON_INCREASING:
        return run_reason(code, pair.place, command);
    case READING_CALL:
        /* G4: calls don't nest. */
        return pair.state == STATE_SUBROUTINE ? REASON_CALL : REASON_NONE;
    case READING_RETURN:
        /* G5: there is nowhere to return to. */
        return pair.state == STATE_MAIN ? REASON_RETURN : REASON_NONE;
    case READING_RESERVED:
        return REASON_RESERVED;
    default:
        return REASON_NONE;
    }
}

/* G27: how many parameters a command has, and its next pairs. */
static struct follow follow_of(struct pair pair, struct reading command)
{
    struct pair after = {pair.place + 1, pair.state};
    struct pair target = {command.value[0] / 4, pair.state};

    switch (command.number) {
    case READING_INCREASING:
    case READING_NON_INCREASING:
        after.place += command.value[0];
        return (struct follow){command.value[0], 1, {after}};
    case READING_OLD_JUMP:
    case READING_JUMP:
        return (struct follow){0, 1, {target}};
    case READING_CALL:
        /* G27: first where it goes, then where it comes back to. */
        target.state = STATE_SUBROUTINE;
        return (struct follow){0, 2, {target, after}};
    case READING_SLI:
        return (struct follow){0, 1, {after}};
    default:
        /* The return, and a reserved word, after which nothing is tried. */
        return (struct follow){0, 0, {{0, 0}}};
    }
}

/* G9: whether one of these places is marked. */
static bool is_marked(const uint8_t *map, uint32_t count)
{
    uint8_t marks = 0;

    for (uint32_t i = 0; i < count; i++)
        marks |= map[i];
    return marks != 0;
}

/* G10, G11, G12, G28: the reasons of a next pair. Only a target can lie past the end. */
static uint32_t next_reason(const struct code *code, const uint8_t *map, struct pair next)
{
    if (next.place > code->count)
        return REASON_TARGET;
    if (next.place == code->count)
        return next.state == STATE_SUBROUTINE ? REASON_END : REASON_NONE;
    if (map != NULL && (map[next.place] & next.state) == 0)
        return REASON_UNMARKED;
    return REASON_NONE;
}

/* G26: the order at one pair. Of a call the target is tried for 10 to 12 and then the word after it, which
 * can have 11 alone. */
uint32_t model_pair_reason(const struct code *code, const uint8_t *map, struct pair pair,
                           struct follow *follow)
{
    struct reading command = model_read(code->setting, word_at(code, pair.place), 0);
    uint32_t reason = command_reason(code, pair, command);

    *follow = follow_of(pair, command);
    if (reason != REASON_NONE)
        return reason;
    if (map != NULL && is_marked(map + pair.place + 1, follow->parameters))
        return REASON_MARKED;
    for (uint32_t i = 0; i < follow->next_count && reason == REASON_NONE; i++)
        reason = next_reason(code, map, follow->next[i]);
    return reason;
}

/* ---- The judgement ---- */

/* G24: how many bits of the list are set. */
static uint32_t permit_count(const uint8_t *permit)
{
    uint32_t count = 0;

    for (size_t i = 0; i < PERMIT_BYTES; i++)
        for (uint8_t bits = permit[i]; bits != 0; bits >>= 1)
            count += bits & 1;
    return count;
}

/* G1: the lowest place with a byte that is no mark, or `count` where there is none. */
static uint32_t first_over(const uint8_t *map, uint32_t count)
{
    uint32_t place = 0;

    while (place < count && map[place] <= STATE_BOTH)
        place++;
    return place;
}

/* G25: at one place main comes first. */
static uint32_t place_reason(const struct code *code, const uint8_t *map, uint32_t place,
                             struct follow *follow)
{
    for (uint32_t state = STATE_MAIN; state <= STATE_SUBROUTINE; state++)
        if ((map[place] & state) != 0) {
            uint32_t reason = model_pair_reason(code, map, (struct pair){place, state}, follow);

            if (reason != REASON_NONE)
                return reason;
        }
    return REASON_NONE;
}

/* G21, G40: the why of the word at a place, where that is the reason. */
static uint32_t why_at(const struct code *code, uint32_t place, uint32_t reason)
{
    if (reason != REASON_RESERVED)
        return WHY_NONE;
    return model_read(code->setting, word_at(code, place), 0).why;
}

/* G25: reasons from 3 on, from the lowest place up. Where a pair has no reason none of its parameters is
 * marked, so that the next pair comes after them: whatever the map, each word is looked at as a parameter at
 * most once for each state. At the first reason the judgement ends. So the time is linear in the words. */
static struct judgement judge_places(const struct code *code, const uint8_t *map, uint32_t permitted)
{
    uint32_t place = 0;

    while (place < code->count) {
        struct follow follow = {0};
        uint32_t reason = place_reason(code, map, place, &follow);

        if (reason != REASON_NONE)
            return (struct judgement){reason, REFUSAL_NONE, why_at(code, place, reason), permitted, place};
        place += 1 + follow.parameters;
    }
    return (struct judgement){REASON_NONE, REFUSAL_NONE, WHY_NONE, permitted, 0};
}

/* G24, G25, G31: the judgement. */
struct judgement model_judge(const struct submission *submission)
{
    const uint8_t *map = submission->map;
    uint32_t refusal = submission_refusal(submission);
    uint32_t permitted, over;
    struct code code;

    if (refusal != REFUSAL_NONE)
        return (struct judgement){REASON_NONE, refusal, WHY_NONE, 0, 0};
    code = model_code(submission);
    permitted = permit_count(submission->permit);
    /* G1: before any other reason. */
    over = first_over(map, code.count);
    if (over < code.count)
        return (struct judgement){REASON_MAP_BYTE, REFUSAL_NONE, WHY_NONE, permitted, over};
    /* G2, G30: without words there is no place 0 to be marked. */
    if (code.count != 0 && (map[0] & STATE_MAIN) == 0)
        return (struct judgement){REASON_START, REFUSAL_NONE, WHY_NONE, permitted, 0};
    return judge_places(&code, map, permitted);
}

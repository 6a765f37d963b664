#include "reading.h"

#include <stdio.h>

#include "program.h"

/* ---- What the library says ---- */

/* The word behind it would only count for the long form, which NV04-style doesn't have. */
upborliya_reading reading_at(const struct submission *submission, uint32_t place)
{
    return upborliya_read(submission->level, UPBORLIYA_MODE_NV04_STYLE, submission->sli,
                          word_at(submission, place), 0);
}

/* ---- A command in words ---- */

static void print_run(const char *form, upborliya_reading reading, const char *method)
{
    printf("%s, ", form);
    print_count(upborliya_method_count(reading), "parameter");
    printf(" to subchannel %u%s 0x%x", upborliya_subchannel(reading), method, upborliya_method(reading));
}

static void print_command(upborliya_reading reading)
{
    switch (upborliya_form(reading)) {
    case UPBORLIYA_FORM_INCREASING:
        print_run("increasing", reading, " from method");
        break;
    case UPBORLIYA_FORM_NON_INCREASING:
        print_run("non-increasing", reading, ", method");
        break;
    case UPBORLIYA_FORM_SLI:
        printf("SLI conditional, mask 0x%03x", upborliya_mask(reading));
        break;
    case UPBORLIYA_FORM_RETURN:
        printf("return");
        break;
    case UPBORLIYA_FORM_LONG:
        print_run("long", reading, ", method");
        break;
    case UPBORLIYA_FORM_OLD_JUMP:
        printf("old jump to byte 0x%x", upborliya_target(reading));
        break;
    case UPBORLIYA_FORM_JUMP:
        printf("jump to byte 0x%x", upborliya_target(reading));
        break;
    default:
        printf("call of byte 0x%x", upborliya_target(reading));
    }
}

/* ---- Why a word is none ---- */

static const char *const cards[] = {"NV04", "NV10", "NV11", "NV40", "NV50", "NV84"};

_Static_assert(sizeof cards / sizeof cards[0] == TOP_LEVEL + 1, "every level has its first card");

/* A setting at which a word is a command, and which. */
struct use {
    uint32_t level;
    uint32_t sli;
    upborliya_reading command;
};

static bool is_command(upborliya_reading reading)
{
    return upborliya_form(reading) >= UPBORLIYA_FORM_INCREASING &&
           upborliya_form(reading) < UPBORLIYA_FORM_RESERVED;
}

static bool is_used(struct use *use, uint32_t mode, uint32_t word, uint32_t next)
{
    use->command = upborliya_read(use->level, mode, use->sli, word, next);
    return is_command(use->command);
}

/* Where the word at a place is a command, by the why that it isn't one here: in the mode that the why leaves,
 * at the lowest level from the submission's up, with SLI as it is or else on. A long form takes its count
 * from the word behind it. */
static bool find_use(struct use *use, const struct submission *submission, uint32_t place, unsigned why)
{
    uint32_t mode = why == UPBORLIYA_WHY_MODE ? UPBORLIYA_MODE_IB : UPBORLIYA_MODE_NV04_STYLE;
    uint32_t word = word_at(submission, place);
    uint32_t next = place + 1 < word_count(submission) ? word_at(submission, place + 1) : 0;

    for (use->level = submission->level; use->level <= TOP_LEVEL; use->level++) {
        use->sli = submission->sli;
        if (is_used(use, mode, word, next))
            return true;
        use->sli = 1;
        if (is_used(use, mode, word, next))
            return true;
    }
    return false;
}

void print_why_at(const struct submission *submission, uint32_t place)
{
    unsigned why = upborliya_reading_why(reading_at(submission, place));
    struct use use;

    if (why == UPBORLIYA_WHY_FORM || !find_use(&use, submission, place, why)) {
        printf("no card has such a command");
        return;
    }
    print_command(use.command);
    if (why == UPBORLIYA_WHY_LEVEL)
        printf(", which needs an %s card%s; this level is %s", cards[use.level],
               use.sli != submission->sli ? " with SLI on" : "", cards[submission->level]);
    else if (why == UPBORLIYA_WHY_MODE)
        printf(", which needs IB mode; only NV04-style is judged");
    else
        printf(", which needs SLI on; here it is off");
}

/* ---- What a word reads as ---- */

/* A command is no long form, which is of IB mode, and has no why. A reserved word has one, and is a command
 * elsewhere unless it has no form. Nothing is refused, as the setting of a submission that wasn't refused is
 * none that a word is refused for. */
bool is_reading_at(const struct submission *submission, uint32_t place)
{
    upborliya_reading reading = reading_at(submission, place);
    unsigned why = upborliya_reading_why(reading);
    struct use use;

    if (upborliya_reading_refusal(reading) != UPBORLIYA_REFUSAL_NONE)
        return false;
    if (is_command(reading))
        return upborliya_form(reading) != UPBORLIYA_FORM_LONG && why == UPBORLIYA_WHY_NONE;
    if (upborliya_form(reading) != UPBORLIYA_FORM_RESERVED)
        return false;
    if (why == UPBORLIYA_WHY_FORM)
        return true;
    return why > UPBORLIYA_WHY_FORM && why <= UPBORLIYA_WHY_SLI && find_use(&use, submission, place, why);
}

void print_reading_at(const struct submission *submission, uint32_t place)
{
    upborliya_reading reading = reading_at(submission, place);

    if (is_command(reading)) {
        print_command(reading);
        return;
    }
    printf("reserved: ");
    print_why_at(submission, place);
}

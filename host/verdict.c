#include "verdict.h"

#include <inttypes.h>
#include <stdio.h>

#include "program.h"
#include "reading.h"

/* ---- The header's numbers in words ---- */

struct refusal {
    const char *name;
    const char *meaning;
};

/* Those that a submission may have. Of the others that the header names, MODE is a single word's, and ROOM
 * can't be, as the repair is lent rooms for as many words as it takes. How many words SIZE is over, depends.
 */
static const struct refusal refusals[] = {
    [UPBORLIYA_REFUSAL_LEVEL] = {"LEVEL", "The level is above 5."},
    [UPBORLIYA_REFUSAL_SLI] = {"SLI", "SLI is enabled below level 3."},
    [UPBORLIYA_REFUSAL_SIZE] = {"SIZE", NULL},
    [UPBORLIYA_REFUSAL_LENGTH] = {"LENGTH", "The words are not a multiple of 4 bytes, the map is not one "
                                            "byte a word, or the list is not 2048 bytes."},
};

/* What each reason means for the author of words and map. */
static const char *const reasons[] = {
    [UPBORLIYA_REASON_MAP_BYTE] =
        "The map byte is over 3; it has to be 0 not a start, 1 main, 2 inside a subroutine or 3 both.",
    [UPBORLIYA_REASON_NO_START] = "The map does not mark place 0 for main, and every run starts there.",
    [UPBORLIYA_REASON_RESERVED] =
        "The map marks this word as a command, but it is reserved at this level and SLI setting.",
    [UPBORLIYA_REASON_CALL_INSIDE] =
        "This call is marked as inside a subroutine, and a subroutine cannot call another.",
    [UPBORLIYA_REASON_RETURN_OUTSIDE] =
        "This return is marked for main, where there is no call to return from.",
    [UPBORLIYA_REASON_SHORT] = "The parameters of this command run past the last word.",
    [UPBORLIYA_REASON_NON_CACHE] =
        "A parameter of this command goes to a method below 0x100 that the level lacks (NON_CACHE).",
    [UPBORLIYA_REASON_NOT_PERMITTED] =
        "A parameter of this command goes to a method that is not permitted on its subchannel.",
    [UPBORLIYA_REASON_MARKED_PARAMETER] =
        "The map marks a place among the parameters of this command as a command start.",
    [UPBORLIYA_REASON_TARGET_PAST] = "The target of this jump or call is past the end of the words.",
    [UPBORLIYA_REASON_NOT_MARKED] =
        "This command goes on at a place (its target, or what follows its parameters) not marked for its "
        "state.",
    [UPBORLIYA_REASON_END_INSIDE] =
        "After this command the words end inside a subroutine, without a return.",
    [UPBORLIYA_REASON_WRAPS] =
        "The parameters of this command go past method 0x1ffc, the last one, and on to method 0.",
};

enum {
    REFUSAL_COUNT = sizeof refusals / sizeof refusals[0],
    REASON_COUNT = sizeof reasons / sizeof reasons[0]
};

/* ---- What was given ---- */

static void print_size(const char *name, const struct lent *lent)
{
    printf("  %s: ", name);
    if (lent->length > lent->limit)
        printf("more than %zu bytes", lent->limit);
    else
        print_count(lent->length, "byte");
}

static bool are_words_whole(const struct submission *submission)
{
    return submission->words.length <= submission->words.limit && submission->words.length % 4 == 0;
}

static void print_words(const struct submission *submission)
{
    print_size("words", &submission->words);
    if (submission->words.length > submission->words.limit)
        printf(" (expected: at most %zu bytes)", submission->words.limit);
    else if (!are_words_whole(submission))
        printf(" (expected: a multiple of 4)");
    printf("\n");
}

/* Without whole words nobody knows how long the map has to be. */
static void print_map(const struct submission *submission)
{
    print_size("map", &submission->map);
    if (are_words_whole(submission) && submission->map.length != word_count(submission)) {
        printf(" (expected: ");
        print_count(word_count(submission), "byte");
        printf(", one a word)");
    }
    printf("\n");
}

static void print_permit(const struct submission *submission)
{
    print_size("permit list", &submission->permit);
    if (submission->permit.length != PERMIT_LIMIT)
        printf(" (expected: %d bytes)", PERMIT_LIMIT);
    printf("\n");
}

/* All of it: a refusal names the first thing that is wrong, and an author wants to mend the others too. */
static void print_given(const struct submission *submission)
{
    bool is_sli_wrong = submission->sli != 0 && submission->level < FIRST_SLI_LEVEL;

    printf("  level: %" PRIu32 "%s\n", submission->level,
           submission->level > TOP_LEVEL ? " (expected: 0 to 5)" : "");
    printf("  SLI: %" PRIu32 "%s\n", submission->sli, is_sli_wrong ? " (expected: 0 below level 3)" : "");
    print_words(submission);
    print_map(submission);
    print_permit(submission);
}

/* ---- The verdict ---- */

/* What is proved of accepted words, with all that it takes, and what is not. */
static const char promised[] =
    "  On a fresh NV04-style channel of this level and SLI setting, with these words unchanged from\n"
    "  address 0 on, put set once, at their end, and a limit not below the last word, no step raises a\n"
    "  pusher error, every method submitted is permitted, no word is read both as command and as\n"
    "  parameter, and whenever the read address equals put, no command and no subroutine is open.\n"
    "  They may still loop for ever, stop at an error of the puller, or wait for a semaphore.\n";

upborliya_answer judge(const struct submission *submission)
{
    return upborliya_judge(submission->level, submission->sli, submission->words.bytes,
                           submission->words.length, submission->map.bytes, submission->map.length,
                           submission->permit.bytes, submission->permit.length);
}

bool is_refusal(unsigned refusal)
{
    return refusal < REFUSAL_COUNT && refusals[refusal].name != NULL;
}

/* Reason 3 has the why that the word at its place reads with. */
static bool is_why(const struct submission *submission, upborliya_answer answer)
{
    upborliya_reading reading = reading_at(submission, upborliya_place(answer));

    return is_reading_at(submission, upborliya_place(answer)) &&
           upborliya_form(reading) == UPBORLIYA_FORM_RESERVED &&
           upborliya_reading_why(reading) == upborliya_reserved_why(answer);
}

bool is_verdict(const struct submission *submission, upborliya_answer answer)
{
    unsigned refusal = upborliya_refusal(answer);
    unsigned reason = upborliya_reason(answer);

    if (reason != UPBORLIYA_REASON_RESERVED && upborliya_reserved_why(answer) != UPBORLIYA_WHY_NONE)
        return false;
    if (refusal != UPBORLIYA_REFUSAL_NONE)
        return reason == UPBORLIYA_REASON_NONE && is_refusal(refusal);
    if (reason == UPBORLIYA_REASON_NONE)
        return true;
    if (reason >= REASON_COUNT || reasons[reason] == NULL ||
        upborliya_place(answer) >= word_count(submission))
        return false;
    return reason != UPBORLIYA_REASON_RESERVED || is_why(submission, answer);
}

int fail_unknown(const char *name, uint64_t answer)
{
    fprintf(stderr, "%s: %s 0x%016" PRIx64 " is unknown\n", program_name, name, answer);
    return FAILED;
}

int print_refused(const struct submission *submission, unsigned refusal)
{
    printf("refused: %s\n", refusals[refusal].name);
    if (refusal == UPBORLIYA_REFUSAL_SIZE)
        printf("  There are over %zu words.\n", submission->words.limit / 4);
    else
        printf("  %s\n", refusals[refusal].meaning);
    print_given(submission);
    return REFUSED;
}

static int print_rejected(const struct submission *submission, upborliya_answer answer)
{
    unsigned reason = upborliya_reason(answer);
    uint32_t place = upborliya_place(answer);

    printf("rejected: reason %u at place %" PRIu32 " (byte %" PRIu32 ")\n", reason, place, 4 * place);
    printf("  %s\n", reasons[reason]);
    if (reason == UPBORLIYA_REASON_RESERVED) {
        printf("  why: ");
        print_why_at(submission, place);
        printf("\n");
    }
    printf("  word: 0x%08" PRIx32 ", map byte: %u\n", word_at(submission, place),
           submission->map.bytes[place]);
    return REJECTED;
}

static int print_accepted(const struct submission *submission, upborliya_answer answer)
{
    printf("accepted: ");
    print_count(word_count(submission), "word");
    printf(", ");
    print_count(upborliya_count(answer), "method");
    printf(" permitted\n%s", promised);
    return ACCEPTED;
}

int print_verdict(const struct submission *submission, upborliya_answer answer)
{
    if (upborliya_refusal(answer) != UPBORLIYA_REFUSAL_NONE)
        return print_refused(submission, upborliya_refusal(answer));
    if (upborliya_reason(answer) != UPBORLIYA_REASON_NONE)
        return print_rejected(submission, answer);
    return print_accepted(submission, answer);
}

/* Puts the map of a submission right: says what changes, and the verdict on the new map, and writes that to
 * a file of its own. */
#include <inttypes.h>
#include <signal.h>
#include <stdio.h>
#include <string.h>

#include "program.h"
#include "reading.h"
#include "submission.h"
#include "verdict.h"
#include "whole.h"

/* The longest words and map that aren't refused for their length alone. */
enum { WORDS_LIMIT = 32768, MAP_LIMIT = WORDS_LIMIT / 4 };

const char program_name[] = "upborliya-repair";

const char program_usage[] = "usage: upborliya-repair LEVEL SLI WORDS MAP PERMIT NEWMAP\n"
                             "       upborliya-repair --help\n";

static const char help[] =
    "\n"
    "Makes the exact map of command words for an NV04-style channel, which marks the commands that they\n"
    "come to from place 0 on and nothing else. Prints how it differs from MAP, and the verdict on it.\n"
    "\n"
    "  LEVEL   0 NV04, 1 NV10, 2 NV11, 3 NV40, 4 NV50, 5 NV84\n"
    "  SLI     0 off, 1 on\n"
    "  WORDS   a file: the words, little-endian, at most 32768 bytes\n"
    "  MAP     a file: a byte a word, 0 not a command start, 1 main, 2 inside a subroutine, 3 both;\n"
    "          any other byte may stand there too\n"
    "  PERMIT  a file: the permitted methods, 2048 bytes; with m the method divided by 4, it is\n"
    "          bit (m mod 8) of byte 256 times subchannel plus m/8\n"
    "  NEWMAP  a file: the exact map is written there, as a whole or not at all; none of the files\n"
    "          above. A file that is there is replaced; of a link the link is, not what it leads to\n"
    "\n"
    "Status:\n"
    "\n"
    "  0  the exact map is accepted, and written\n"
    "  1  refused, and nothing is written: a level, an SLI setting or sizes that are not repaired\n"
    "  2  the exact map is written, but rejected, as any map is with these words and this list\n"
    "  3  nothing is written: wrong usage, a file that cannot be read or written, output that cannot\n"
    "     be written\n";

/* A file that goes beyond its room is cut, and is refused as the whole file would be: LEVEL and SLI come
 * first and look at no file; words above their limit are SIZE, however far above, and whatever the others
 * are; and where they aren't, there are at most MAP_LIMIT words, so that any map above its limit is not one
 * byte a word and any permit list above its limit is not 2,048 bytes, both LENGTH. ROOM comes last, and
 * doesn't apply. */
static uint8_t words_room[WORDS_LIMIT + 1];
static uint8_t map_room[MAP_LIMIT + 1];
static uint8_t permit_room[PERMIT_LIMIT + 1];

/* The map that is repaired: a copy, as the changes are told beside the old one. */
static uint8_t new_map_room[MAP_LIMIT + 1];

/* What the repair is lent: one entry a word for what changed, and two to work with. */
static uint64_t list[MAP_LIMIT];
static uint64_t work[2 * MAP_LIMIT];

/* ---- The arguments ---- */

/* Whether NEWMAP may be written; says what is wrong with it. */
static bool is_new_map(char **argv)
{
    struct argument written = {"NEWMAP", argv[6]};
    struct argument read[] = {{"WORDS", argv[3]}, {"MAP", argv[4]}, {"PERMIT", argv[5]}};

    if (*argv[6] == '\0')
        return fail_usage("NEWMAP has to be the name of a file");
    return may_be_written(written, read, sizeof read / sizeof read[0]);
}

static bool read_arguments(struct submission *given, int argc, char **argv)
{
    if (argc != 7)
        return fail_usage("six arguments are needed");
    return read_setting(given, argv[1], argv[2]) && is_new_map(argv) &&
           read_files(given, argv[3], argv[4], argv[5]);
}

/* ---- What the library answers ---- */

/* The answer, with the submission whose map was repaired. */
static upborliya_answer repair(const struct submission *given, struct submission *repaired)
{
    *repaired = *given;
    repaired->map.bytes = new_map_room;
    memcpy(new_map_room, given->map.bytes, given->map.length);
    return upborliya_repair(repaired->level, repaired->sli, repaired->words.bytes, repaired->words.length,
                            repaired->map.bytes, repaired->map.length, repaired->permit.bytes,
                            repaired->permit.length, list, MAP_LIMIT, work, 2 * MAP_LIMIT);
}

/* Whether the repair can have answered so: a refusal or a count, and nothing in any other bit. */
static bool is_repair(upborliya_answer answer)
{
    unsigned refusal = upborliya_refusal(answer);

    if (refusal != UPBORLIYA_REFUSAL_NONE)
        return is_refusal(refusal) && answer == (upborliya_answer)refusal << 8;
    return answer == (upborliya_answer)upborliya_count(answer) << 24;
}

static bool fail_list(void)
{
    fprintf(stderr, "%s: the repair's list is not what changed of the map\n", program_name);
    return false;
}

/* Whether the list has each byte that changed, and no other; says so where it hasn't. */
static bool is_list(const struct submission *given, const struct submission *repaired, unsigned count)
{
    unsigned found = 0;

    for (uint32_t place = 0; place < word_count(given); place++) {
        uint8_t before = given->map.bytes[place];
        uint8_t now = repaired->map.bytes[place];

        if (before != now && list[found++] != (place | (uint64_t)before << 32 | (uint64_t)now << 40))
            return fail_list();
    }
    return found == count || fail_list();
}

/* Whether each word that is to be told has a reading; says so where one hasn't. */
static bool are_readings(const struct submission *given, unsigned count)
{
    for (unsigned i = 0; i < count; i++) {
        uint32_t place = upborliya_change_place(list[i]);

        if (!is_reading_at(given, place)) {
            fail_unknown("the reading of a word", reading_at(given, place));
            return false;
        }
    }
    return true;
}

/* Whether the gatekeeper can have answered so to the new map. What it would refuse, the repair has refused.
 */
static bool is_judged(const struct submission *repaired, upborliya_answer answer)
{
    return is_verdict(repaired, answer) && upborliya_refusal(answer) == UPBORLIYA_REFUSAL_NONE;
}

/* ---- What is printed ---- */

static void print_mark(uint8_t byte)
{
    static const char *const marks[] = {"no start", "main", "inside a subroutine", "both"};

    if (byte < sizeof marks / sizeof marks[0])
        printf("%s", marks[byte]);
    else
        printf("not a mark (%u)", byte);
}

static void print_change(const struct submission *given, uint64_t change)
{
    uint32_t place = upborliya_change_place(change);

    printf("  place %" PRIu32 " (byte %" PRIu32 "): was ", place, 4 * place);
    print_mark((uint8_t)upborliya_change_old(change));
    printf(", now ");
    print_mark((uint8_t)upborliya_change_new(change));
    printf("\n    word: 0x%08" PRIx32 ", as a command: ", word_at(given, place));
    print_reading_at(given, place);
    printf("\n");
}

static void print_changes(const struct submission *given, unsigned count)
{
    printf("repaired: ");
    print_count(count, "byte");
    printf(" of the map changed%s\n", count == 0 ? ", it is exact already" : "");
    for (unsigned i = 0; i < count; i++)
        print_change(given, list[i]);
}

/* The exact map is accepted if any is, so that its rejection speaks against all of them. */
static int print_judged(const struct submission *repaired, upborliya_answer verdict)
{
    int status = print_verdict(repaired, verdict);

    if (status == REJECTED)
        printf("\nNo map is accepted with these words and this list at this level and SLI setting: "
               "the fault is not the map's.\n");
    return status;
}

/* All that the library answers is looked at before anything is printed. */
static int tell(const struct submission *given, struct submission *repaired)
{
    upborliya_answer answer = repair(given, repaired);
    unsigned count = upborliya_count(answer);
    upborliya_answer verdict;

    if (!is_repair(answer))
        return fail_unknown("the repair's answer", answer);
    if (upborliya_refusal(answer) != UPBORLIYA_REFUSAL_NONE)
        return print_refused(given, upborliya_refusal(answer));
    if (!is_list(given, repaired, count) || !are_readings(given, count))
        return FAILED;
    verdict = judge(repaired);
    if (!is_judged(repaired, verdict))
        return fail_unknown("the gatekeeper's answer to the new map", verdict);
    print_changes(given, count);
    printf("\n");
    return print_judged(repaired, verdict);
}

int main(int argc, char **argv)
{
    struct submission repaired;
    struct submission given = {
        .words = {.bytes = words_room, .limit = WORDS_LIMIT},
        .map = {.bytes = map_room, .limit = MAP_LIMIT},
        .permit = {.bytes = permit_room, .limit = PERMIT_LIMIT},
    };
    int status;

    /* So that a pipe without a reader is output that can't be written, and not the end of the program; and a
     * file that may not grow so far is one that can't be written. */
    signal(SIGPIPE, SIG_IGN);
    signal(SIGXFSZ, SIG_IGN);
    if (is_help(argc, argv)) {
        printf("%s%s", program_usage, help);
        return finish(ACCEPTED);
    }
    if (!read_arguments(&given, argc, argv))
        return FAILED;
    status = finish(tell(&given, &repaired));
    /* Last of all, so that whoever finds the new map could read what was said of it. */
    if ((status == ACCEPTED || status == REJECTED) &&
        !write_whole(argv[6], repaired.map.bytes, repaired.map.length))
        status = FAILED;
    return status;
}

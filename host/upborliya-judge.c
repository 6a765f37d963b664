/* Judges a submission that lies in three files, and says the verdict in words and by the status. */
#include <signal.h>
#include <stdio.h>

#include "program.h"
#include "submission.h"
#include "verdict.h"

/* The longest words and map that aren't refused for their length alone. */
enum { WORDS_LIMIT = 4194304, MAP_LIMIT = WORDS_LIMIT / 4 };

const char program_name[] = "upborliya-judge";

const char program_usage[] = "usage: upborliya-judge LEVEL SLI WORDS MAP PERMIT\n"
                             "       upborliya-judge --help\n";

static const char help[] =
    "\n"
    "Judges command words for an NV04-style channel.\n"
    "\n"
    "  LEVEL   0 NV04, 1 NV10, 2 NV11, 3 NV40, 4 NV50, 5 NV84\n"
    "  SLI     0 off, 1 on\n"
    "  WORDS   a file: the words, little-endian, at most 4194304 bytes\n"
    "  MAP     a file: a byte a word, 0 not a command start, 1 main, 2 inside a subroutine, 3 both\n"
    "  PERMIT  a file: the permitted methods, 2048 bytes; with m the method divided by 4, it is\n"
    "          bit (m mod 8) of byte 256 times subchannel plus m/8\n"
    "\n"
    "Status:\n"
    "\n"
    "  0  accepted\n"
    "  1  refused: a level, an SLI setting or sizes that are not judged\n"
    "  2  rejected: for a reason, at a place of the words\n"
    "  3  no verdict: wrong usage, a file that cannot be read, output that cannot be written\n";

/* A file that goes beyond its room is cut, and has the verdict of the whole file: LEVEL and SLI come first
 * and look at no file; words above their limit are SIZE, however far above; and where they aren't, there are
 * at most MAP_LIMIT words, so that any map above its limit is not one byte a word and any permit list above
 * its limit is not 2,048 bytes, both LENGTH. */
static uint8_t words_room[WORDS_LIMIT + 1];
static uint8_t map_room[MAP_LIMIT + 1];
static uint8_t permit_room[PERMIT_LIMIT + 1];

static bool read_arguments(struct submission *submission, int argc, char **argv)
{
    if (argc != 6)
        return fail_usage("five arguments are needed");
    return read_setting(submission, argv[1], argv[2]) && read_files(submission, argv[3], argv[4], argv[5]);
}

static int give_verdict(const struct submission *submission)
{
    upborliya_answer answer = judge(submission);

    if (!is_verdict(submission, answer))
        return fail_unknown("the gatekeeper's answer", answer);
    return print_verdict(submission, answer);
}

int main(int argc, char **argv)
{
    struct submission submission = {
        .words = {.bytes = words_room, .limit = WORDS_LIMIT},
        .map = {.bytes = map_room, .limit = MAP_LIMIT},
        .permit = {.bytes = permit_room, .limit = PERMIT_LIMIT},
    };

    /* So that a pipe without a reader is output that can't be written, and not the end of the program. */
    signal(SIGPIPE, SIG_IGN);
    if (is_help(argc, argv)) {
        printf("%s%s", program_usage, help);
        return finish(ACCEPTED);
    }
    if (!read_arguments(&submission, argc, argv))
        return FAILED;
    return finish(give_verdict(&submission));
}

/* Measures the gatekeeper of the archive beside the model's, on the same submissions and in one run, so that
 * what disturbs one disturbs the other: they take turns, and of each the least time counts. The two have to
 * give the same answer.
 *
 * The time grows with the words alone, whatever the map: a pair without a reason has no marked parameter, so
 * that a word is looked at as a parameter at most once for each state, and the first reason ends the
 * judgement. So the worst maps mark every command for both states and give no reason before the end. Under
 * them the worst words are the shortest commands, of which there are most, drawn so that none foretells the
 * next; and runs that go to a method below 0x100, so that each parameter is asked for as a special method
 * too. */
#include <inttypes.h>
#include <stdio.h>
#include <stdlib.h>
#include <string.h>
#include <time.h>

#include "../include/upborliya.h"
#include "../tests/model/gate_draw.h"
#include "words.h"

/* How often the two take turns, and how long a turn is at least. */
enum { ROUNDS = 7, TURN_NANOSECONDS = 2000000 };

/* A level that has every form of a command but the SLI conditional, and a method that is not special. */
enum { LEVEL = 3, METHOD = 0x200 };

static const uint32_t sizes[] = {1, 16, 256, 4096, 65536, 1048576};

enum { SIZES = sizeof sizes / sizeof sizes[0], QUICK_SIZES = 3 };

static struct given given;

/* ---- Submissions ---- */

/* A command, with the mark of its place. What is not marked keeps the word that it has. */
static void put(uint32_t place, uint32_t word, uint8_t mark)
{
    set_word(&given, place, word);
    given.map[place] = mark;
}

/* Everything is permitted, nothing marked, and each word one that is no command. */
static void begin(uint32_t size)
{
    given.level = LEVEL;
    given.sli = 0;
    set_count(&given, size);
    fill_permit(&given, 0xff);
    memset(given.map, 0, given.map_length);
    memset(given.words, 0xff, given.words_length);
}

/* How many parameters a run at a place can have before the end, if it is to have so many. */
static uint32_t fitting(uint32_t most, uint32_t place, uint32_t end)
{
    uint32_t left = end - place - 1;

    return most < left ? most : left;
}

typedef uint32_t run_function(uint32_t count, uint32_t method);

/* Runs of so many parameters, one after the other; the last has what is left. */
static void put_runs_of(run_function *run, uint32_t end, uint32_t most, uint32_t method, uint8_t mark)
{
    uint32_t count;

    for (uint32_t place = 0; place < end; place += 1 + count) {
        count = fitting(most, place, end);
        put(place, run(count, method), mark);
    }
}

static void put_runs(uint32_t end, uint32_t most, uint32_t method, uint8_t mark)
{
    put_runs_of(increasing, end, most, method, mark);
}

/* Inside a subroutine the end must not be reached: the last word leads back to place 0. */
static void put_way_back(uint32_t size)
{
    put(size - 1, old_jump(0), STATE_BOTH);
}

static void give_empty(uint32_t size)
{
    put_runs(size, 0, METHOD, STATE_MAIN);
}

static void give_runs_of_7(uint32_t size)
{
    put_runs(size, 7, METHOD, STATE_MAIN);
}

static void give_runs_of_1023(uint32_t size)
{
    put_runs(size, 1023, METHOD, STATE_MAIN);
}

/* The start of a command at a place or before it. */
static uint32_t start_before(uint32_t place)
{
    while (given.map[place] == 0)
        place--;
    return place;
}

/* Runs of up to 15 parameters, and a jump for every three of them, to any command before it. */
static void give_mixed(uint32_t size)
{
    struct draw draw = {0xbe7c4};
    uint32_t count;

    for (uint32_t place = 0; place < size; place += 1 + count) {
        count = 0;
        if (place != 0 && draw_once_in(&draw, 4)) {
            put(place, jump(start_before(draw_below(&draw, place))), STATE_MAIN);
        } else {
            count = fitting(draw_below(&draw, 16), place, size);
            put(place, increasing(count, METHOD + 4 * draw_below(&draw, 64)), STATE_MAIN);
        }
    }
}

/* The last word is reserved. */
static void give_bad_end(uint32_t size)
{
    put_runs(size - 1, 7, METHOD, STATE_MAIN);
    given.map[size - 1] = STATE_MAIN;
}

/* The last map byte is over 3: all others are looked at before any word. */
static void give_bad_byte(uint32_t size)
{
    put_runs(size, 7, METHOD, STATE_MAIN);
    given.map[size - 1] = STATE_BOTH + 1;
}

static void give_empty_for_both(uint32_t size)
{
    put_runs(size - 1, 0, METHOD, STATE_BOTH);
    put_way_back(size);
}

/* Each goes to any place. */
static void give_jumps_for_both(uint32_t size)
{
    struct draw draw = {0x30b5};

    for (uint32_t place = 0; place < size; place++)
        put(place, jump(draw_below(&draw, size)), STATE_BOTH);
}

/* A jump to any place, of either form, or a command without parameters, of either form. */
static uint32_t draw_short(struct draw *draw, uint32_t size)
{
    uint32_t target = draw_below(draw, size);

    switch (draw_below(draw, 4)) {
    case 0:
        return jump(target);
    case 1:
        return old_jump(target);
    case 2:
        return increasing(0, METHOD);
    default:
        return non_increasing(0, METHOD);
    }
}

static void give_short_for_both(uint32_t size)
{
    struct draw draw = {0x5407};

    for (uint32_t place = 0; place < size; place++)
        put(place, draw_short(&draw, size), STATE_BOTH);
    put_way_back(size);
}

static void give_ones_for_both(uint32_t size)
{
    put_runs(size - 1, 1, 0, STATE_BOTH);
    put_way_back(size);
}

static void give_long_for_both(uint32_t size)
{
    put_runs_of(non_increasing, size - 1, 1023, 0, STATE_BOTH);
    put_way_back(size);
}

/* A jump to itself. */
static void give_first_alone(uint32_t size)
{
    (void)size;
    put(0, old_jump(0), STATE_MAIN);
}

/* What is given, and the reason that it has to have, so that no judgement ends before it should. */
struct shape {
    const char *name;
    void (*give)(uint32_t size);
    uint32_t reason;
};

static const struct shape shapes[] = {
    {"no parameters", give_empty, REASON_NONE},
    {"runs of 7", give_runs_of_7, REASON_NONE},
    {"runs of 1,023", give_runs_of_1023, REASON_NONE},
    {"runs and jumps", give_mixed, REASON_NONE},
    {"runs of 7, last word reserved", give_bad_end, REASON_RESERVED},
    {"runs of 7, last map byte over 3", give_bad_byte, REASON_MAP_BYTE},
    {"first place alone marked", give_first_alone, REASON_NONE},
    {"both states: no parameters", give_empty_for_both, REASON_NONE},
    {"both states: jumps anywhere", give_jumps_for_both, REASON_NONE},
    {"both states: jumps and no parameters", give_short_for_both, REASON_NONE},
    {"both states: runs of 1 to method 0", give_ones_for_both, REASON_NONE},
    {"both states: runs of 1,023 to method 0", give_long_for_both, REASON_NONE},
};

enum { SHAPES = sizeof shapes / sizeof shapes[0] };

/* ---- The two gatekeepers ---- */

static struct judgement archive_judge(const struct submission *s)
{
    upborliya_answer answer = upborliya_judge(s->level, s->sli, s->words, s->words_length, s->map,
                                              s->map_length, s->permit, s->permit_length);

    return (struct judgement){upborliya_reason(answer), upborliya_refusal(answer),
                              upborliya_reserved_why(answer), upborliya_count(answer), upborliya_place(answer)};
}

typedef struct judgement judge_function(const struct submission *submission);

/* The compiler doesn't know which one is called, so that it leaves none out for its answer being known. */
static judge_function *volatile archive = archive_judge;
static judge_function *volatile model = model_judge;

static bool same(struct judgement a, struct judgement b)
{
    return a.reason == b.reason && a.refusal == b.refusal && a.why == b.why && a.count == b.count &&
           a.place == b.place;
}

static void compare(const struct shape *shape, const struct submission *submission)
{
    struct judgement got = archive(submission);
    struct judgement wanted = model(submission);

    if (same(got, wanted) && wanted.refusal == REFUSAL_NONE && wanted.reason == shape->reason)
        return;
    fprintf(stderr,
            "gate: %s, %" PRIu32 " words: reason %" PRIu32 " at place %" PRIu32 ", the model's %" PRIu32
            " at %" PRIu32 ", wanted %" PRIu32 "\n",
            shape->name, word_count(&given), got.reason, got.place, wanted.reason, wanted.place,
            shape->reason);
    exit(1);
}

/* ---- Time ---- */

static double now(void)
{
    struct timespec time;

    clock_gettime(CLOCK_MONOTONIC, &time);
    return 1e9 * (double)time.tv_sec + (double)time.tv_nsec;
}

/* The nanoseconds of so many judgements. */
static double turn(judge_function *judge, const struct submission *submission, unsigned times)
{
    double start = now();

    for (unsigned i = 0; i < times; i++)
        judge(submission);
    return now() - start;
}

static double lesser(double a, double b)
{
    return a < b ? a : b;
}

/* How many judgements make a turn that is long enough. It is tried twice, since one that was interrupted
 * seems long. */
static unsigned times_for(judge_function *judge, const struct submission *submission)
{
    unsigned times = 1;

    while (lesser(turn(judge, submission, times), turn(judge, submission, times)) < TURN_NANOSECONDS)
        times *= 2;
    return times;
}

/* A table's cell: the archive's nanoseconds a word, and in how many times the model's time it is done. */
static void measure(const struct submission *submission, uint32_t size)
{
    unsigned archive_times = times_for(archive, submission);
    unsigned model_times = times_for(model, submission);
    double archive_least = turn(archive, submission, archive_times);
    double model_least = turn(model, submission, model_times);

    for (unsigned i = 1; i < ROUNDS; i++) {
        archive_least = lesser(archive_least, turn(archive, submission, archive_times));
        model_least = lesser(model_least, turn(model, submission, model_times));
    }
    archive_least /= archive_times;
    model_least /= model_times;
    printf(" %.*f (%.2f) |", archive_least < 100.0 * size ? 1 : 0, archive_least / size,
           archive_least / model_least);
    fflush(stdout);
}

static void measure_shape(const struct shape *shape)
{
    printf("| %s |", shape->name);
    for (unsigned i = 0; i < SIZES; i++) {
        struct submission submission;

        begin(sizes[i]);
        shape->give(sizes[i]);
        submission = submission_of(&given);
        compare(shape, &submission);
        measure(&submission, sizes[i]);
    }
    putchar('\n');
}

/* Compares alone, at the smallest sizes. */
static void compare_shape(const struct shape *shape)
{
    for (unsigned i = 0; i < QUICK_SIZES; i++) {
        struct submission submission;

        begin(sizes[i]);
        shape->give(sizes[i]);
        submission = submission_of(&given);
        compare(shape, &submission);
    }
}

int main(int count, char **arguments)
{
    bool is_quick = count == 2 && strcmp(arguments[1], "--quick") == 0;

    if (count != 1 && !is_quick) {
        fprintf(stderr, "usage: gate [--quick]\n");
        return 1;
    }
    for (unsigned i = 0; i < SHAPES; i++)
        (is_quick ? compare_shape : measure_shape)(&shapes[i]);
    return 0;
}

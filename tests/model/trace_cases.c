/* Writes cases for the program to a directory: for each one NAME.in, what the program is given, and NAME.out,
 * what it has to print by the model. To standard output it prints how many there are, a line each:
 *   CASES    all cases, by the end: idle, budget, error or refused
 *   REFUSED  the refused ones, by the refusal
 *   CAUSE    those with an error, by what stopped the channel
 *   WHY      those that a reserved word stopped, by its why
 *   KIND     the steps of all cases, by their kind */
#include <string.h>

#include "draw.h"
#include "trace.h"

/* ---- One case ---- */

enum { CASE_ROOM = 2 * 4 * TRACE_WORDS, PATH_ROOM = 4096 };

/* The bytes of a case. */
static struct {
    uint8_t bytes[CASE_ROOM];
    size_t length;
} given;

static void give_nothing(void)
{
    given.length = 0;
}

static void give_word(uint32_t word)
{
    for (unsigned i = 0; i < 4; i++)
        given.bytes[given.length++] = (uint8_t)(word >> 8 * i);
}

/* So many of the same word, after those given. */
static void give_times(uint32_t count, uint32_t word)
{
    for (uint32_t i = 0; i < count; i++)
        give_word(word);
}

static uint32_t given_words(void)
{
    return (uint32_t)(given.length / 4);
}

/* ---- Files and counts ---- */

/* The numbers still to be drawn, and what was counted so far. */
struct cases {
    const char *directory;
    struct draw draw;
    bool failed;
    unsigned long ends[ENDED_ERROR + 1];
    unsigned long pusher_errors[PUSHER_PROTECTION + 1];
    unsigned long whys[WHY_COUNT];
    unsigned long puller_errors[PULLER_SEMAPHORE_4 + 1];
    unsigned long kinds[KIND_LAST + 1];
};

/* The file of a case; NULL where it can't be written. */
static FILE *open_file(struct cases *cases, const char *name, const char *suffix)
{
    char path[PATH_ROOM];
    int length = snprintf(path, sizeof path, "%s/%s%s", cases->directory, name, suffix);
    FILE *file = length > 0 && length < PATH_ROOM ? fopen(path, "wb") : NULL;

    if (file == NULL) {
        fprintf(stderr, "trace cases: %s%s cannot be written\n", name, suffix);
        cases->failed = true;
    }
    return file;
}

static void close_file(struct cases *cases, FILE *file)
{
    bool is_bad = ferror(file) != 0;

    if (fclose(file) != 0 || is_bad) {
        fprintf(stderr, "trace cases: a case cannot be written\n");
        cases->failed = true;
    }
}

/* The two files of what is given. */
static struct traced write_case(struct cases *cases, const char *name)
{
    FILE *in = open_file(cases, name, ".in");
    FILE *out = open_file(cases, name, ".out");
    struct traced traced = {0};

    if (in != NULL) {
        fwrite(given.bytes, 1, given.length, in);
        close_file(cases, in);
    }
    if (out != NULL) {
        traced = model_trace(out, given.bytes, given.length);
        close_file(cases, out);
    }
    return traced;
}

static void count_case(struct cases *cases, const struct traced *traced)
{
    cases->ends[traced->end]++;
    cases->pusher_errors[traced->pusher_error]++;
    cases->whys[traced->pusher_why]++;
    cases->puller_errors[traced->puller_error]++;
    for (unsigned kind = 0; kind <= KIND_LAST; kind++)
        cases->kinds[kind] += traced->kinds[kind];
}

static void put_case(struct cases *cases, const char *name)
{
    struct traced traced = write_case(cases, name);

    count_case(cases, &traced);
}

/* The sum of the counts from number 1 on. */
static unsigned long sum(const unsigned long *counts, unsigned last)
{
    unsigned long total = 0;

    for (unsigned i = 1; i <= last; i++)
        total += counts[i];
    return total;
}

static void print_count(const char *name, unsigned long count)
{
    if (count != 0)
        printf(" %s=%lu", name, count);
}

static void print_counts(const struct cases *cases)
{
    const unsigned long *ends = cases->ends;
    unsigned long refused = ends[ENDED_SIZE] + ends[ENDED_LENGTH];

    printf("CASES %lu:", sum(ends, ENDED_ERROR));
    print_count("idle", ends[ENDED_IDLE]);
    print_count("budget", ends[ENDED_BUDGET]);
    print_count("error", ends[ENDED_ERROR]);
    print_count("refused", refused);
    printf("\nREFUSED %lu:", refused);
    print_count("SIZE", ends[ENDED_SIZE]);
    print_count("LENGTH", ends[ENDED_LENGTH]);
    printf("\nCAUSE %lu:", ends[ENDED_ERROR]);
    for (uint32_t error = 1; error <= PUSHER_PROTECTION; error++)
        print_count(model_cause_name(error, 0), cases->pusher_errors[error]);
    for (uint32_t error = 1; error <= PULLER_SEMAPHORE_4; error++)
        print_count(model_cause_name(0, error), cases->puller_errors[error]);
    printf("\nWHY %lu:", sum(cases->whys, WHY_SLI));
    for (uint32_t why = WHY_FORM; why <= WHY_SLI; why++)
        print_count(model_why_name(why), cases->whys[why]);
    printf("\nKIND %lu:", sum(cases->kinds, KIND_LAST));
    for (uint32_t kind = 1; kind <= KIND_LAST; kind++)
        print_count(model_kind_name(kind), cases->kinds[kind]);
    putchar('\n');
}

/* ---- Few words ---- */

enum { ROW_WORDS = 8 };

/* T1, T3, T4, T5, T7, T8, T11: every kind, every cause and every why that the program can come to. */
static const struct row {
    const char *name;
    uint32_t count;
    uint32_t words[ROW_WORDS];
} rows[] = {
    {"printed", 2, {0x00040050, 0x00000007}},
    {"no-words", 0, {0}},
    {"count-0", 4, {0x00000000, 0x4000fffc, 0x0000e004, 0x00000180}},

    /* Methods that are taken; those past the end are not waited for. */
    {"ref-event-offset", 6, {0x0004e050, 0xffffffff, 0x00046080, 0x80000000, 0x00042064, 0x00000ffc}},
    {"runs", 8, {0x400c4050, 1, 0x20000000, 3, 0x40080080, 0x00020000, 0x00000002, 0x00000000}},
    {"offsets", 5, {0x4010a064, 0x00000000, 0x00000004, 0x000007f8, 0x00000ffc}},
    {"run-past-end", 3, {0x5ffc0050, 5, 6}},

    /* Jumps, calls and returns. */
    {"jumps", 6, {0x20000010, 0x00000015, 0x00000003, 0x00000003, 0x00000005, 0x20000018}},
    {"jump-to-end", 3, {0x0000000d, 0x00000003, 0x00000003}},
    {"call-return", 6, {0x00000012, 0x00000012, 0x20000018, 0x00000003, 0x00000000, 0x00020000}},
    {"call-last", 4, {0x2000000c, 0x0000c080, 0x00020000, 0x00000006}},
    {"call-to-end", 2, {0x00000000, 0x0000000a}},
    {"jump-into-run", 5, {0x00000009, 0x000c0050, 0x00040050, 0x00000009, 0x00000000}},

    /* What stops the pusher. */
    {"call-inside", 4, {0x0000000a, 0x00000000, 0x00000000, 0x0000000e}},
    {"call-itself", 1, {0x00000002}},
    {"non-cache-04", 2, {0x00040004, 0}},
    {"non-cache-10", 2, {0x0004e010, 0}},
    {"non-cache-24", 2, {0x40040024, 0}},
    {"non-cache-54", 4, {0x00080050, 9, 1, 0}},
    {"non-cache-70", 2, {0x00040070, 0}},
    {"non-cache-84", 3, {0x00080080, 9, 1}},
    {"non-cache-fc", 2, {0x000400fc, 0}},
    {"return-main", 2, {0x00020000, 0}},
    {"return-twice", 5, {0x0000000a, 0x00020000, 0x00040050, 1, 0x00020000}},
    {"reserved-low-bits", 2, {0x00000000, 0xffffffff}},
    {"reserved-printed", 1, {0x00000003}},
    {"reserved-return", 1, {0x00020004}},
    {"reserved-upper", 3, {0x00040050, 4, 0x80000000}},
    {"reserved-nearly-sli", 2, {0x00000000, 0x00010058}},
    {"reserved-nearly-long", 1, {0x00070000}},

    /* W22, W23: the same by the mode, and by SLI, which is off. */
    {"reserved-long", 2, {0x00034100, 0x00000001}},
    {"reserved-long-zero", 1, {0x00030000}},
    {"reserved-long-full", 3, {0x00040050, 5, 0x0003fffc}},
    {"reserved-long-inside", 4, {0x0000000a, 0x00000000, 0x00000000, 0x0003e050}},
    {"reserved-long-behind-jump", 3, {0x20000008, 0x00000003, 0x00038004}},
    {"reserved-sli-off", 1, {0x00010050}},
    {"reserved-sli-none", 2, {0x00000000, 0x00010000}},
    {"reserved-sli-all", 3, {0x40040080, 1, 0x0001fff0}},
    {"reserved-sli-inside", 3, {0x0000000a, 0x00000003, 0x00010010}},
    {"reserved-sli-behind-jump", 3, {0x20000008, 0x00000003, 0x00018000}},

    /* What stops the pusher where there is no word to read. */
    {"protection-jump", 1, {0x00000009}},
    {"protection-top", 3, {0x00040050, 2, 0xfffffffd}},
    {"protection-misread", 1, {0x00010001}},
    {"protection-old-jump", 1, {0x3ffffffc}},
    {"protection-call", 2, {0x80000002, 0}},

    /* What stops the puller. */
    {"no-hash-00", 3, {0x00080000, 0, 0}},
    {"no-hash-60", 3, {0x00080060, 1, 0}},
    {"no-hash-180", 2, {0x0004e180, 0}},
    {"no-hash-1fc", 2, {0x400401fc, 0xffffffff}},
    {"empty-100", 2, {0x00040100, 0}},
    {"empty-17c", 3, {0x0008217c, 0, 0}},
    {"empty-200", 2, {0x00040200, 0}},
    {"empty-wrap", 4, {0x000cfffc, 0, 0, 0}},
    {"semaphore-1-high", 2, {0x00040064, 0x00001000}},
    {"semaphore-1-low", 3, {0x40080064, 8, 0x00000001}},
    {"semaphore-2-acquire", 3, {0x00080064, 8, 0}},
    {"semaphore-2-release", 4, {0x00040050, 6, 0x0004006c, 1}},
};

static void put_rows(struct cases *cases)
{
    for (size_t i = 0; i < sizeof rows / sizeof rows[0]; i++) {
        give_nothing();
        for (uint32_t j = 0; j < rows[i].count; j++)
            give_word(rows[i].words[j]);
        put_case(cases, rows[i].name);
    }
}

/* ---- Lengths ---- */

/* R8, R9, R29, T2: too many bytes, part words among them, and part words alone. The words that are there
 * would print lines. */
static void put_lengths(struct cases *cases)
{
    static const struct {
        const char *name;
        size_t length;
    } lengths[] = {
        {"bytes-1", 1},         {"bytes-2", 2},         {"bytes-3", 3},
        {"bytes-9", 9},         {"bytes-32767", 32767}, {"bytes-32769", 32769},
        {"bytes-32770", 32770}, {"bytes-32772", 32772}, {"bytes-65536", 65536},
    };

    for (size_t i = 0; i < sizeof lengths / sizeof lengths[0]; i++) {
        memset(given.bytes, 0, sizeof given.bytes);
        given.length = lengths[i].length;
        put_case(cases, lengths[i].name);
    }
}

/* R29, T2: 8,192 words, all of count 0; refs, in runs as long as a command can have them; any words. */
static void put_most_words(struct cases *cases)
{
    give_nothing();
    give_times(TRACE_WORDS, 0x00000000);
    put_case(cases, "most-zeros");

    give_nothing();
    while (given_words() < TRACE_WORDS) {
        uint32_t left = TRACE_WORDS - given_words() - 1;
        uint32_t parameters = left < 2047 ? left : 2047;

        give_word(0x4000a050 | parameters << 18);
        for (uint32_t i = 0; i < parameters; i++)
            give_word(draw_number(&cases->draw));
    }
    put_case(cases, "most-refs");

    give_nothing();
    while (given_words() < TRACE_WORDS)
        give_word(draw_number(&cases->draw));
    put_case(cases, "most-any");
}

/* ---- At most 65,536 steps ---- */

/* 4,095 calls of a subroutine of 15 words are 65,520 steps; then come some words of count 0 and a last one,
 * and behind them the subroutine. */
enum { CALLS = 4095, SUBROUTINE = 15 };

static void give_long_run(uint32_t zeros, uint32_t last)
{
    give_nothing();
    give_times(CALLS, 4 * (CALLS + zeros + 1) | 2);
    give_times(zeros, 0x00000000);
    give_word(last);
    give_times(SUBROUTINE - 1, 0x00000000);
    give_word(0x00020000);
}

/* An old jump to the end of that. */
static uint32_t jump_to_end(uint32_t zeros)
{
    return 0x20000000 | 4 * (CALLS + zeros + 1 + SUBROUTINE);
}

/* T6, T7: a run without end, and those that end with step 65,536 or would with the next. */
static void put_long_runs(struct cases *cases)
{
    give_nothing();
    give_word(0x20000000);
    put_case(cases, "budget");
    give_long_run(15, jump_to_end(15));
    put_case(cases, "last-step-idle");
    give_long_run(16, jump_to_end(16));
    put_case(cases, "last-step-before-idle");
    give_long_run(15, 0x00000003);
    put_case(cases, "last-step-error");
    give_long_run(16, 0x00000003);
    put_case(cases, "last-step-before-error");
}

/* ---- Drawn words ---- */

/* A text of 65,536 lines is long, so that few drawn cases may be without end. */
enum { MOST_BUDGETS = 5 };

/* A run of a method, with its parameters. */
static void give_run(struct draw *draw, uint32_t form, uint32_t method, uint32_t parameters)
{
    uint32_t subchannel = draw_below(draw, 8);

    give_word(form | parameters << 18 | subchannel << 13 | method);
    for (uint32_t i = 0; i < parameters; i++)
        give_word(draw_word(draw));
}

/* P11: an offset, good or not. */
static void give_offset(uint32_t form, uint32_t offset)
{
    give_word(form | 1 << 18 | 0x64);
    give_word(offset);
}

/* A command that nothing stops, with its parameters. */
static void give_sound(struct draw *draw)
{
    static const uint32_t methods[] = {0x50, 0x80};
    uint32_t method = draw_among(draw, methods, 2);
    uint32_t form = draw_below(draw, 2) << 30;

    switch (draw_below(draw, 5)) {
    case 0:
        give_run(draw, form, 4 * draw_below(draw, 2048), 0);
        break;
    case 1:
        give_offset(form, draw_number(draw) & 0xffc);
        break;
    case 2:
        give_run(draw, 0, method, 1);
        break;
    default:
        give_run(draw, 0x40000000, method, draw_below(draw, 5));
        break;
    }
}

/* A command that is likely to stop the channel: a return does so in main, a call inside a subroutine. The
 * first subroutine of a program is at address 4. */
static void give_fault(struct draw *draw)
{
    static const uint32_t methods[] = {0x00, 0x04, 0x10, 0x50,  0x5c,  0x60,  0x64,  0x68,
                                       0x6c, 0x7c, 0x80, 0x17c, 0x180, 0x1f8, 0x200, 0x1ffc};
    uint32_t method = draw_among(draw, methods, sizeof methods / sizeof methods[0]);
    uint32_t form = draw_below(draw, 2) << 30;

    switch (draw_below(draw, 11)) {
    case 0:
        give_word(draw_word(draw));
        break;
    case 1:
        give_word((draw_number(draw) & ~UINT32_C(3)) | 1);
        break;
    case 2:
    case 3:
        give_word(0x00000006);
        break;
    case 4:
        give_word(0x00020000);
        break;
    case 5:
        give_offset(form, draw_number(draw));
        break;
    default:
        give_run(draw, form, method, 1 + draw_below(draw, 4));
        break;
    }
}

/* Commands in a row; one in so many is likely to stop the channel, none where that is 0. */
static void give_row(struct draw *draw, uint32_t commands, uint32_t fault_once_in)
{
    for (uint32_t i = 0; i < commands; i++)
        if (fault_once_in != 0 && draw_once_in(draw, fault_once_in))
            give_fault(draw);
        else
            give_sound(draw);
}

/* Either kind of jump to an address. */
static uint32_t draw_jump(struct draw *draw, uint32_t address)
{
    return draw_once_in(draw, 2) ? address | 1 : address | 0x20000000;
}

/* A jump over commands of any kind. */
static void give_jump_over(struct draw *draw)
{
    size_t at = given.length;
    size_t end;

    give_word(0);
    give_row(draw, draw_below(draw, 3), 2);
    end = given.length;
    given.length = at;
    give_word(draw_jump(draw, (uint32_t)end));
    given.length = end;
}

enum { SUBROUTINES = 3 };

/* The subroutines stand first, with a jump over them; then come rows, calls and jumps. Now and then a jump
 * goes back, without end. */
static void give_program(struct draw *draw, uint32_t fault_once_in)
{
    uint32_t subroutines[SUBROUTINES];
    uint32_t parts = 1 + draw_below(draw, draw_once_in(draw, 5) ? 24 : 6);
    size_t end;

    give_nothing();
    give_word(0);
    for (unsigned i = 0; i < SUBROUTINES; i++) {
        subroutines[i] = (uint32_t)given.length;
        give_row(draw, draw_below(draw, 3), fault_once_in);
        give_word(0x00020000);
    }
    end = given.length;
    given.length = 0;
    give_word(draw_jump(draw, (uint32_t)end));
    given.length = end;
    for (uint32_t i = 0; i < parts; i++) {
        give_row(draw, draw_below(draw, 3), fault_once_in);
        if (draw_once_in(draw, 2))
            give_word(draw_among(draw, subroutines, SUBROUTINES) | 2);
        if (draw_once_in(draw, 4))
            give_jump_over(draw);
        if (draw_once_in(draw, 64))
            give_word(draw_jump(draw, (uint32_t)end));
    }
}

/* Any words, with a lean to those that are commands. */
static void give_any_words(struct draw *draw)
{
    uint32_t count = 1 + draw_below(draw, 40);

    give_nothing();
    for (uint32_t i = 0; i < count; i++)
        give_word(draw_word(draw));
}

/* Any bytes, part words too; half of them start with a run of refs. */
static void give_any_bytes(struct draw *draw)
{
    uint32_t length = draw_below(draw, 60);

    give_nothing();
    if (draw_once_in(draw, 2))
        give_word(0x40000050 | draw_below(draw, 16) << 18);
    for (uint32_t i = 0; i < length; i++)
        given.bytes[given.length++] = (uint8_t)draw_number(draw);
}

enum { DRAWN = 136 };

static void give_drawn(struct draw *draw, unsigned turn)
{
    switch (turn % 8) {
    case 0:
    case 1:
        give_program(draw, 0);
        break;
    case 2:
    case 3:
    case 4:
        give_program(draw, 9);
        break;
    case 5:
        give_program(draw, 3);
        break;
    case 6:
        give_any_words(draw);
        break;
    default:
        give_any_bytes(draw);
        break;
    }
}

static void put_drawn(struct cases *cases)
{
    for (unsigned i = 0; i < DRAWN; i++) {
        struct traced traced;
        char name[32];

        snprintf(name, sizeof name, "drawn-%03u", i);
        do {
            give_drawn(&cases->draw, i);
            traced = write_case(cases, name);
        } while (traced.end == ENDED_BUDGET && cases->ends[ENDED_BUDGET] >= MOST_BUDGETS);
        count_case(cases, &traced);
    }
}

/* ---- The program ---- */

int main(int count, char **arguments)
{
    static struct cases cases = {.draw = {0x5eed}};

    if (count != 2) {
        fprintf(stderr, "usage: trace_cases DIRECTORY\n");
        return 2;
    }
    cases.directory = arguments[1];
    put_rows(&cases);
    put_lengths(&cases);
    put_most_words(&cases);
    put_long_runs(&cases);
    put_drawn(&cases);
    print_counts(&cases);
    return cases.failed || fflush(stdout) != 0 || ferror(stdout) ? 1 : 0;
}

/* The self-test of the model of the program: texts worked out by hand from the rules, the longest runs, and a
 * second reading of what the program can come to, on drawn words.
 *
 * What it can come to is little: with an empty table every lookup is NO_HASH, so that nothing is ever bound.
 *
 * Kinds: command, ref, event, offset and error. A count is that of a long form, which IB mode alone has. Bind
 * and dma come after a lookup. Forward needs an engine, which bind gives. Acquire, release and wait need a
 * semaphore object, which below level 4 dma gives, and without a first wait there is no retry. Entries are IB
 * mode's, nothing is discarded with SLI off, and a run ends before a step that is idle or stopped.
 *
 * Causes: CALL, NON_CACHE, RETURN, RESERVED_CMD, PROTECTION, NO_HASH, EMPTY_SUBCHANNEL, SEMAPHORE_1 (by 0x64
 * alone) and SEMAPHORE_2 (unbound). IB is IB mode's, SEMAPHORE_3 and SEMAPHORE_4 are those of level 4 up.
 *
 * Whys: FORM, MODE of the long form alone, and SLI. Level 3 is below no form's level.
 *
 * A run from 0x1ffc never gets to method 0, as its first parameter finds an empty subchannel. The lines that
 * no run has are asked for one by one. */
#include <inttypes.h>
#include <stdarg.h>
#include <stdlib.h>
#include <string.h>

#include "draw.h"
#include "trace.h"

static uint64_t checks;

/* ---- Texts ---- */

/* Room for the longest text: no line has more than 72 bytes. */
enum { TEXT_ROOM = 72 * (TRACE_STEPS + 2) };

struct text {
    char bytes[TEXT_ROOM];
    size_t length;
};

/* What the model wrote and what it should have. */
static struct text written;
static struct text wanted;

static void want_nothing(void)
{
    wanted.length = 0;
    wanted.bytes[0] = '\0';
}

static void want(const char *format, ...)
{
    size_t room = sizeof wanted.bytes - wanted.length;
    va_list values;
    int length;

    va_start(values, format);
    length = vsnprintf(wanted.bytes + wanted.length, room, format, values);
    va_end(values);
    if (length < 0 || (size_t)length >= room)
        abort();
    wanted.length += (size_t)length;
}

/* A file of its own for each text. */
static FILE *start_text(void)
{
    FILE *out = tmpfile();

    if (out == NULL) {
        perror("trace model: no file to write to");
        exit(2);
    }
    return out;
}

static void end_text(FILE *out)
{
    rewind(out);
    written.length = fread(written.bytes, 1, sizeof written.bytes - 1, out);
    written.bytes[written.length] = '\0';
    fclose(out);
}

/* Counts a check; the first text that isn't the wanted one is named, with the line where they part. */
static void check_text(const char *sentence)
{
    const char *a = written.bytes;
    const char *b = wanted.bytes;
    size_t line = 0;

    checks++;
    if (written.length == wanted.length && memcmp(a, b, wanted.length) == 0)
        return;
    for (size_t i = 0; a[i] == b[i] && a[i] != '\0'; i++)
        line = a[i] == '\n' ? i + 1 : line;
    fprintf(stderr, "trace model: failed: %s\nwritten: %.*s\nwanted: %.*s\n", sentence,
            (int)strcspn(a + line, "\n"), a + line, (int)strcspn(b + line, "\n"), b + line);
    exit(1);
}

static void check(bool good, const char *sentence)
{
    checks++;
    if (good)
        return;
    fprintf(stderr, "trace model: failed: %s\n%s\n", sentence, written.bytes);
    exit(1);
}

/* ---- Input ---- */

enum { INPUT_ROOM = 2 * 4 * TRACE_WORDS };

static uint8_t input[INPUT_ROOM];
static size_t input_length;

static void give_nothing(void)
{
    input_length = 0;
}

static void give_word(uint32_t word)
{
    for (unsigned i = 0; i < 4; i++)
        input[input_length++] = (uint8_t)(word >> 8 * i);
}

static void give_words(const uint32_t *words, size_t count)
{
    give_nothing();
    for (size_t i = 0; i < count; i++)
        give_word(words[i]);
}

/* So many of the same word, after those given. */
static void give_times(uint32_t count, uint32_t word)
{
    for (uint32_t i = 0; i < count; i++)
        give_word(word);
}

/* What is given prints what is wanted. It is lent from a copy that ends with its room, so that the sanitizers
 * see what is read behind it. */
static struct traced prints_wanted(const char *sentence)
{
    static uint8_t room[INPUT_ROOM];
    uint8_t *lent = room + sizeof room - input_length;
    FILE *out = start_text();
    struct traced traced;

    memcpy(lent, input, input_length);
    traced = model_trace(out, lent, input_length);
    end_text(out);
    check_text(sentence);
    return traced;
}

/* ---- Texts worked out by hand ---- */

enum { ROW_WORDS = 6 };

struct row {
    const char *sentence;
    uint32_t count;
    uint32_t words[ROW_WORDS];
    const char *text;
};

/* T1, T3, T4, T5, T7, T8, T10, T11: each kind, each cause and each why that the program can come to, with its
 * lines. */
static const struct row rows[] = {
    {"the printed example", 2, {0x00040050, 0x00000007},
     "step=1 get=0 kind=command\n"
     "step=2 get=4 kind=ref subc=0 mthd=80 param=7\n"
     "end=idle steps=2 get=8 ref=7\n"},
    {"No words", 0, {0}, "end=idle steps=0 get=0 ref=0\n"},

    /* Commands. */
    {"a command with count 0", 1, {0x00000000},
     "step=1 get=0 kind=command\n"
     "end=idle steps=1 get=4 ref=0\n"},
    {"commands with count 0, whatever the method", 3, {0x0000e004, 0x40000004, 0x00001ffc},
     "step=1 get=0 kind=command\n"
     "step=2 get=4 kind=command\n"
     "step=3 get=8 kind=command\n"
     "end=idle steps=3 get=12 ref=0\n"},
    {"words that are never reached", 3, {0x20000008, 0x00000003, 0x00000000},
     "step=1 get=0 kind=command\n"
     "step=2 get=8 kind=command\n"
     "end=idle steps=2 get=12 ref=0\n"},
    {"a jump to the end", 2, {0x00000009, 0x00000003},
     "step=1 get=0 kind=command\n"
     "end=idle steps=1 get=8 ref=0\n"},
    {"a jump back", 4, {0x2000000c, 0x20000010, 0x00000003, 0x00000005},
     "step=1 get=0 kind=command\n"
     "step=2 get=12 kind=command\n"
     "step=3 get=4 kind=command\n"
     "end=idle steps=3 get=16 ref=0\n"},
    {"a call and a return", 3, {0x0000000a, 0x2000000c, 0x00020000},
     "step=1 get=0 kind=command\n"
     "step=2 get=8 kind=command\n"
     "step=3 get=4 kind=command\n"
     "end=idle steps=3 get=12 ref=0\n"},
    {"a return to the end", 3, {0x20000008, 0x00020000, 0x00000006},
     "step=1 get=0 kind=command\n"
     "step=2 get=8 kind=command\n"
     "step=3 get=4 kind=command\n"
     "end=idle steps=3 get=12 ref=0\n"},
    {"two calls of one subroutine", 6,
     {0x00000012, 0x00000012, 0x20000018, 0x00000003, 0x40000000, 0x00020000},
     "step=1 get=0 kind=command\n"
     "step=2 get=16 kind=command\n"
     "step=3 get=20 kind=command\n"
     "step=4 get=4 kind=command\n"
     "step=5 get=16 kind=command\n"
     "step=6 get=20 kind=command\n"
     "step=7 get=8 kind=command\n"
     "end=idle steps=7 get=24 ref=0\n"},
    {"idle inside a subroutine", 1, {0x00000006},
     "step=1 get=0 kind=command\n"
     "end=idle steps=1 get=4 ref=0\n"},

    /* Methods. */
    {"the reference counter", 2, {0x0004e050, 0xffffffff},
     "step=1 get=0 kind=command\n"
     "step=2 get=4 kind=ref subc=7 mthd=80 param=4294967295\n"
     "end=idle steps=2 get=8 ref=4294967295\n"},
    {"the reference counter, whatever its parameters look like", 3, {0x40082050, 0x20000000, 0x00000003},
     "step=1 get=0 kind=command\n"
     "step=2 get=4 kind=ref subc=1 mthd=80 param=536870912\n"
     "step=3 get=8 kind=ref subc=1 mthd=80 param=3\n"
     "end=idle steps=3 get=12 ref=3\n"},
    {"0x80: an event", 3, {0x40084080, 0x80000000, 0x00000000},
     "step=1 get=0 kind=command\n"
     "step=2 get=4 kind=event subc=2 mthd=128 param=2147483648\n"
     "step=3 get=8 kind=event subc=2 mthd=128 param=0\n"
     "end=idle steps=3 get=12 ref=0\n"},
    {"0x64: bits in 0xffc", 4, {0x400c6064, 0x00000ffc, 0x00000000, 0x00000004},
     "step=1 get=0 kind=command\n"
     "step=2 get=4 kind=offset subc=3 mthd=100 param=4092\n"
     "step=3 get=8 kind=offset subc=3 mthd=100 param=0\n"
     "step=4 get=12 kind=offset subc=3 mthd=100 param=4\n"
     "end=idle steps=4 get=16 ref=0\n"},
    {"parameters past the end are not waited for", 2, {0x1ffc0050, 0x00000001},
     "step=1 get=0 kind=command\n"
     "step=2 get=4 kind=ref subc=0 mthd=80 param=1\n"
     "end=idle steps=2 get=8 ref=1\n"},
    {"parameters past the end are not waited for", 1, {0x00040100},
     "step=1 get=0 kind=command\n"
     "end=idle steps=1 get=4 ref=0\n"},

    /* S28, T7: pusher errors, with the read address past the word, but for PROTECTION. */
    {"CALL", 2, {0x00000006, 0x0000000a},
     "step=1 get=0 kind=command\n"
     "step=2 get=4 kind=error\n"
     "end=error cause=CALL steps=2 get=8 ref=0\n"},
    {"CALL of the call itself", 1, {0x00000002},
     "step=1 get=0 kind=command\n"
     "step=2 get=0 kind=error\n"
     "end=error cause=CALL steps=2 get=4 ref=0\n"},
    {"NON_CACHE", 2, {0x00040004, 0x00000000},
     "step=1 get=0 kind=command\n"
     "step=2 get=4 kind=error\n"
     "end=error cause=NON_CACHE steps=2 get=8 ref=0\n"},
    {"NON_CACHE below level 5", 2, {0x00040010, 0x00000000},
     "step=1 get=0 kind=command\n"
     "step=2 get=4 kind=error\n"
     "end=error cause=NON_CACHE steps=2 get=8 ref=0\n"},
    {"an increasing method rises: 0x54 is lacking", 4, {0x00080050, 0x00000009, 0x00000001, 0x00000000},
     "step=1 get=0 kind=command\n"
     "step=2 get=4 kind=ref subc=0 mthd=80 param=9\n"
     "step=3 get=8 kind=error\n"
     "end=error cause=NON_CACHE steps=3 get=12 ref=9\n"},
    {"an increasing method rises: 0x84 is lacking", 3, {0x0008a080, 0x00000009, 0x00000001},
     "step=1 get=0 kind=command\n"
     "step=2 get=4 kind=event subc=5 mthd=128 param=9\n"
     "step=3 get=8 kind=error\n"
     "end=error cause=NON_CACHE steps=3 get=12 ref=0\n"},
    {"RETURN", 2, {0x00020000, 0x00000000},
     "step=1 get=0 kind=error\n"
     "end=error cause=RETURN steps=1 get=4 ref=0\n"},
    {"RETURN, the second", 5, {0x0000000a, 0x00020000, 0x00040050, 0x00000001, 0x00020000},
     "step=1 get=0 kind=command\n"
     "step=2 get=8 kind=command\n"
     "step=3 get=12 kind=ref subc=0 mthd=80 param=1\n"
     "step=4 get=16 kind=command\n"
     "step=5 get=4 kind=error\n"
     "end=error cause=RETURN steps=5 get=8 ref=1\n"},
    {"RESERVED_CMD", 1, {0x00000003},
     "step=1 get=0 kind=error\n"
     "end=error cause=RESERVED_CMD why=FORM steps=1 get=4 ref=0\n"},
    {"RESERVED_CMD: SLI off", 2, {0x00000000, 0x00010050},
     "step=1 get=0 kind=command\n"
     "step=2 get=4 kind=error\n"
     "end=error cause=RESERVED_CMD why=SLI steps=2 get=8 ref=0\n"},
    {"RESERVED_CMD: a long form in NV04-style", 2, {0x00034100, 0x00000001},
     "step=1 get=0 kind=error\n"
     "end=error cause=RESERVED_CMD why=MODE steps=1 get=4 ref=0\n"},
    {"RESERVED_CMD: 0x00020004", 1, {0x00020004},
     "step=1 get=0 kind=error\n"
     "end=error cause=RESERVED_CMD why=FORM steps=1 get=4 ref=0\n"},
    {"RESERVED_CMD: nearly a conditional", 1, {0x00010054},
     "step=1 get=0 kind=error\n"
     "end=error cause=RESERVED_CMD why=FORM steps=1 get=4 ref=0\n"},
    {"RESERVED_CMD: nearly a long form", 1, {0x00070000},
     "step=1 get=0 kind=error\n"
     "end=error cause=RESERVED_CMD why=FORM steps=1 get=4 ref=0\n"},
    {"RESERVED_CMD inside a subroutine, after a ref", 5, {0x0000000a, 0, 0x00040050, 9, 0x0003fffc},
     "step=1 get=0 kind=command\n"
     "step=2 get=8 kind=command\n"
     "step=3 get=12 kind=ref subc=0 mthd=80 param=9\n"
     "step=4 get=16 kind=error\n"
     "end=error cause=RESERVED_CMD why=MODE steps=4 get=20 ref=9\n"},
    {"a parameter that would be reserved has no why", 3, {0x00040050, 0x00000003, 0x00010050},
     "step=1 get=0 kind=command\n"
     "step=2 get=4 kind=ref subc=0 mthd=80 param=3\n"
     "step=3 get=8 kind=error\n"
     "end=error cause=RESERVED_CMD why=SLI steps=3 get=12 ref=3\n"},
    {"PROTECTION one word past the end", 1, {0x00000009},
     "step=1 get=0 kind=command\n"
     "step=2 get=8 kind=error\n"
     "end=error cause=PROTECTION steps=2 get=8 ref=0\n"},
    {"PROTECTION after a jump, whatever its upper half", 1, {0x00010001},
     "step=1 get=0 kind=command\n"
     "step=2 get=65536 kind=error\n"
     "end=error cause=PROTECTION steps=2 get=65536 ref=0\n"},
    {"PROTECTION at the last address", 3, {0x00040050, 0x00000002, 0xfffffffd},
     "step=1 get=0 kind=command\n"
     "step=2 get=4 kind=ref subc=0 mthd=80 param=2\n"
     "step=3 get=8 kind=command\n"
     "step=4 get=4294967292 kind=error\n"
     "end=error cause=PROTECTION steps=4 get=4294967292 ref=2\n"},
    {"PROTECTION after an old jump", 1, {0x3ffffffc},
     "step=1 get=0 kind=command\n"
     "step=2 get=536870908 kind=error\n"
     "end=error cause=PROTECTION steps=2 get=536870908 ref=0\n"},
    {"PROTECTION after a call", 1, {0xfffffffe},
     "step=1 get=0 kind=command\n"
     "step=2 get=4294967292 kind=error\n"
     "end=error cause=PROTECTION steps=2 get=4294967292 ref=0\n"},

    /* P21, T7: puller errors, with the read address past the word. */
    {"0x00: NO_HASH", 2, {0x00040000, 0x00000000},
     "step=1 get=0 kind=command\n"
     "step=2 get=4 kind=error\n"
     "end=error cause=NO_HASH steps=2 get=8 ref=0\n"},
    {"0x60: NO_HASH", 3, {0x00080060, 0x00000001, 0x00000000},
     "step=1 get=0 kind=command\n"
     "step=2 get=4 kind=error\n"
     "end=error cause=NO_HASH steps=2 get=8 ref=0\n"},
    {"0x180: NO_HASH comes before EMPTY_SUBCHANNEL", 2, {0x00042180, 0x00000000},
     "step=1 get=0 kind=command\n"
     "step=2 get=4 kind=error\n"
     "end=error cause=NO_HASH steps=2 get=8 ref=0\n"},
    {"0x1fc: NO_HASH comes before EMPTY_SUBCHANNEL", 2, {0x000401fc, 0x00000000},
     "step=1 get=0 kind=command\n"
     "step=2 get=4 kind=error\n"
     "end=error cause=NO_HASH steps=2 get=8 ref=0\n"},
    {"0x100: EMPTY_SUBCHANNEL", 2, {0x00040100, 0x00000000},
     "step=1 get=0 kind=command\n"
     "step=2 get=4 kind=error\n"
     "end=error cause=EMPTY_SUBCHANNEL steps=2 get=8 ref=0\n"},
    {"0x17c: EMPTY_SUBCHANNEL", 2, {0x0004017c, 0x00000000},
     "step=1 get=0 kind=command\n"
     "step=2 get=4 kind=error\n"
     "end=error cause=EMPTY_SUBCHANNEL steps=2 get=8 ref=0\n"},
    {"0x200: EMPTY_SUBCHANNEL", 2, {0x00040200, 0x00000000},
     "step=1 get=0 kind=command\n"
     "step=2 get=4 kind=error\n"
     "end=error cause=EMPTY_SUBCHANNEL steps=2 get=8 ref=0\n"},
    {"a run from 0x1ffc stops before it gets to 0", 3, {0x0008fffc, 0x00000001, 0x00000002},
     "step=1 get=0 kind=command\n"
     "step=2 get=4 kind=error\n"
     "end=error cause=EMPTY_SUBCHANNEL steps=2 get=8 ref=0\n"},
    {"0x64: a bit above 0xffc", 2, {0x00040064, 0x00001000},
     "step=1 get=0 kind=command\n"
     "step=2 get=4 kind=error\n"
     "end=error cause=SEMAPHORE_1 steps=2 get=8 ref=0\n"},
    {"0x64: a bit below 0xffc, after an offset", 3, {0x40080064, 0x00000008, 0x00000002},
     "step=1 get=0 kind=command\n"
     "step=2 get=4 kind=offset subc=0 mthd=100 param=8\n"
     "step=3 get=8 kind=error\n"
     "end=error cause=SEMAPHORE_1 steps=3 get=12 ref=0\n"},
    {"0x68: no object, though the word is equal", 3, {0x00080064, 0x00000008, 0x00000000},
     "step=1 get=0 kind=command\n"
     "step=2 get=4 kind=offset subc=0 mthd=100 param=8\n"
     "step=3 get=8 kind=error\n"
     "end=error cause=SEMAPHORE_2 steps=3 get=12 ref=0\n"},
    {"0x6c: no object", 4, {0x00040050, 0x00000006, 0x0004006c, 0x00000001},
     "step=1 get=0 kind=command\n"
     "step=2 get=4 kind=ref subc=0 mthd=80 param=6\n"
     "step=3 get=8 kind=command\n"
     "step=4 get=12 kind=error\n"
     "end=error cause=SEMAPHORE_2 steps=4 get=16 ref=6\n"},
};

static void test_rows(void)
{
    for (size_t i = 0; i < sizeof rows / sizeof rows[0]; i++) {
        give_words(rows[i].words, rows[i].count);
        want_nothing();
        want("%s", rows[i].text);
        prints_wanted(rows[i].sentence);
    }
}

/* ---- Lengths ---- */

/* R8, R9, R21, R29, T2: too many bytes, part words among them, and part words alone. */
static void test_lengths(void)
{
    static const size_t sizes[] = {32769, 32770, 32771, 32772, 32773, 65535, 65536};
    static const size_t parts[] = {1, 2, 3, 5, 6, 7, 1001, 32765, 32766, 32767};

    memset(input, 0, sizeof input);
    for (unsigned i = 0; i < sizeof sizes / sizeof sizes[0]; i++) {
        input_length = sizes[i];
        want_nothing();
        want("refused=SIZE\n");
        prints_wanted("too many bytes");
    }
    for (unsigned i = 0; i < sizeof parts / sizeof parts[0]; i++) {
        input_length = parts[i];
        want_nothing();
        want("refused=LENGTH\n");
        prints_wanted("a part word");
    }
}

/* R29, T2: 8,192 words are not too many. */
static void test_most_words(void)
{
    give_nothing();
    give_times(TRACE_WORDS, 0x00000000);
    want_nothing();
    for (uint32_t i = 0; i < TRACE_WORDS; i++)
        want("step=%" PRIu32 " get=%" PRIu32 " kind=command\n", i + 1, 4 * i);
    want("end=idle steps=8192 get=32768 ref=0\n");
    prints_wanted("8,192 words");
}

/* ---- At most 65,536 steps ---- */

/* T6, T7: a jump to itself. */
static void test_budget(void)
{
    give_words((const uint32_t[]){0x20000000}, 1);
    want_nothing();
    for (uint32_t i = 1; i <= 65536; i++)
        want("step=%" PRIu32 " get=0 kind=command\n", i);
    want("end=budget steps=65536 get=0 ref=0\n");
    prints_wanted("65,536 steps");
}

/* T6, T7: two refs and a jump back, 16,384 times. */
static void test_budget_with_ref(void)
{
    give_words((const uint32_t[]){0x40080050, 0x00000005, 0x00000006, 0x20000000}, 4);
    want_nothing();
    for (uint32_t i = 1; i <= 65536; i += 4) {
        want("step=%" PRIu32 " get=0 kind=command\n", i);
        want("step=%" PRIu32 " get=4 kind=ref subc=0 mthd=80 param=5\n", i + 1);
        want("step=%" PRIu32 " get=8 kind=ref subc=0 mthd=80 param=6\n", i + 2);
        want("step=%" PRIu32 " get=12 kind=command\n", i + 3);
    }
    want("end=budget steps=65536 get=0 ref=6\n");
    prints_wanted("65,536 steps");
}

/* The long run: 4,095 calls of a subroutine of 15 words take 16 steps each, 65,520 in all; some words of
 * count 0 and a last one follow, and behind them the subroutine. */
enum { CALLS = 4095, SUBROUTINE = 15 };

static void give_long_run(uint32_t zeros, uint32_t last)
{
    uint32_t subroutine = 4 * (CALLS + zeros + 1);

    give_nothing();
    give_times(CALLS, subroutine | 2);
    give_times(zeros, 0x00000000);
    give_word(last);
    give_times(SUBROUTINE - 1, 0x00000000);
    give_word(0x00020000);
}

/* The lines of its calls and of so many steps after them. */
static void want_long_run(uint32_t zeros, uint32_t steps)
{
    uint32_t step = 0;

    want_nothing();
    for (uint32_t i = 0; i < CALLS; i++) {
        want("step=%" PRIu32 " get=%" PRIu32 " kind=command\n", ++step, 4 * i);
        for (uint32_t j = 0; j < SUBROUTINE; j++)
            want("step=%" PRIu32 " get=%" PRIu32 " kind=command\n", ++step, 4 * (CALLS + zeros + 1 + j));
    }
    for (uint32_t i = 0; i < steps; i++)
        want("step=%" PRIu32 " get=%" PRIu32 " kind=command\n", ++step, 4 * (CALLS + i));
}

/* S8, T6, T7: the last word is a jump to the end, address 4 * (4,095 + zeros + 1 + 15), or a reserved word,
 * each as step 65,536 and as the one after it. */
static void test_last_step(void)
{
    give_long_run(15, 0x20000000 | 16504);
    want_long_run(15, 16);
    want("end=idle steps=65536 get=16504 ref=0\n");
    prints_wanted("idle after 65,536 steps");

    give_long_run(16, 0x20000000 | 16508);
    want_long_run(16, 16);
    want("end=budget steps=65536 get=16444 ref=0\n");
    prints_wanted("idle after 65,537 steps is budget");

    give_long_run(14, 0x20000000 | 16500);
    want_long_run(14, 15);
    want("end=idle steps=65535 get=16500 ref=0\n");
    prints_wanted("idle after 65,535 steps");

    give_long_run(15, 0x00000003);
    want_long_run(15, 15);
    want("step=65536 get=16440 kind=error\n");
    want("end=error cause=RESERVED_CMD why=FORM steps=65536 get=16444 ref=0\n");
    prints_wanted("an error at step 65,536");

    give_long_run(16, 0x00000003);
    want_long_run(16, 16);
    want("end=budget steps=65536 get=16444 ref=0\n");
    prints_wanted("an error after 65,536 steps isn't seen");
}

/* ---- Lines that no run has ---- */

/* S29, T3, T4, T5: the other kinds, and those that a retry has too. */
static const struct {
    struct answer answer;
    const char *text;
} lines[] = {
    {{0, KIND_COUNT, false, 0, 0, 0}, "step=9 get=1099511627772 kind=count\n"},
    {{0, KIND_BIND, true, 7, 0, 4096}, "step=9 get=1099511627772 kind=bind subc=7 mthd=0 param=4096\n"},
    {{0, KIND_DMA, true, 1, 96, 8}, "step=9 get=1099511627772 kind=dma subc=1 mthd=96 param=8\n"},
    {{0, KIND_ACQUIRE, true, 1, 104, 8}, "step=9 get=1099511627772 kind=acquire subc=1 mthd=104 param=8\n"},
    {{0, KIND_ACQUIRE, false, 0, 0, 0}, "step=9 get=1099511627772 kind=acquire\n"},
    {{0, KIND_RELEASE, true, 1, 108, 8}, "step=9 get=1099511627772 kind=release subc=1 mthd=108 param=8\n"},
    {{0, KIND_WAIT, true, 1, 104, 8}, "step=9 get=1099511627772 kind=wait subc=1 mthd=104 param=8\n"},
    {{0, KIND_WAIT, false, 0, 0, 0}, "step=9 get=1099511627772 kind=wait\n"},
    {{0, KIND_FORWARD, true, 1, 8188, 8}, "step=9 get=1099511627772 kind=forward subc=1 mthd=8188 param=8\n"},
    {{0, KIND_ENTRY, false, 0, 0, 0}, "step=9 get=1099511627772 kind=entry\n"},
    {{0, KIND_DISCARD, true, 1, 256, 8}, "step=9 get=1099511627772 kind=discard subc=1 mthd=256 param=8\n"},
    {{0, KIND_IDLE, false, 0, 0, 0}, "step=9 get=1099511627772 kind=idle\n"},
    {{0, KIND_STOPPED, false, 0, 0, 0}, "step=9 get=1099511627772 kind=stopped\n"},
};

/* T3, T4, T10: decimal numbers, with a read address of 40 bits. */
static void test_lines(void)
{
    for (size_t i = 0; i < sizeof lines / sizeof lines[0]; i++) {
        FILE *out = start_text();

        model_trace_step(out, 9, UINT64_C(0xfffffffffc), lines[i].answer);
        end_text(out);
        want_nothing();
        want("%s", lines[i].text);
        check_text("a line by itself");
    }
}

/* T7, T8, T9, T11: the other causes, the whys, of which no run has LEVEL, and the one cause that is told of
 * two, with its why where it has one. */
static const struct {
    uint32_t pusher_error;
    uint32_t pusher_why;
    uint32_t puller_error;
    const char *text;
} ends[] = {
    {PUSHER_IB, 0, 0, "end=error cause=IB steps=3 get=16 ref=5\n"},
    {0, 0, PULLER_SEMAPHORE_3, "end=error cause=SEMAPHORE_3 steps=3 get=16 ref=5\n"},
    {0, 0, PULLER_SEMAPHORE_4, "end=error cause=SEMAPHORE_4 steps=3 get=16 ref=5\n"},
    {PUSHER_CALL, 0, PULLER_NO_HASH, "end=error cause=CALL steps=3 get=16 ref=5\n"},
    {PUSHER_RESERVED_CMD, 1, 0, "end=error cause=RESERVED_CMD why=FORM steps=3 get=16 ref=5\n"},
    {PUSHER_RESERVED_CMD, 2, 0, "end=error cause=RESERVED_CMD why=LEVEL steps=3 get=16 ref=5\n"},
    {PUSHER_RESERVED_CMD, 3, 0, "end=error cause=RESERVED_CMD why=MODE steps=3 get=16 ref=5\n"},
    {PUSHER_RESERVED_CMD, 4, 0, "end=error cause=RESERVED_CMD why=SLI steps=3 get=16 ref=5\n"},
    {PUSHER_RESERVED_CMD, 2, 6, "end=error cause=RESERVED_CMD why=LEVEL steps=3 get=16 ref=5\n"},
};

static void test_ends(void)
{
    for (size_t i = 0; i < sizeof ends / sizeof ends[0]; i++) {
        struct channel channel = {.get = 16,
                                  .ref = 5,
                                  .pusher_error = ends[i].pusher_error,
                                  .pusher_why = ends[i].pusher_why,
                                  .puller_error = ends[i].puller_error};
        FILE *out = start_text();

        model_trace_end(out, ENDED_ERROR, 3, &channel);
        end_text(out);
        want_nothing();
        want("%s", ends[i].text);
        check_text("an end by itself");
    }
}

/* ---- A second reading ---- */

/* What is left of a channel where nothing can be bound. The method is a byte number; a run that isn't
 * increasing rises by 0. */
struct simple {
    uint32_t get;
    uint32_t ref;
    uint32_t left;
    uint32_t subchannel;
    uint32_t method;
    uint32_t rise;
    bool inside;
    uint32_t back;
    const char *cause;
    const char *why;
};

/* W17, S9: the word at an address, its lowest byte first. */
static uint32_t given_word(uint32_t address)
{
    return input[address] | (uint32_t)input[address + 1] << 8 | (uint32_t)input[address + 2] << 16 |
           (uint32_t)input[address + 3] << 24;
}

/* S24, P2, P6, P7, P11, P13, P18, P19: what a parameter comes to, the name of a kind, or NULL and a cause. */
static const char *simple_parameter(struct simple *simple, uint32_t parameter)
{
    switch (simple->method) {
    case 0x50:
        simple->ref = parameter;
        return "ref";
    case 0x64:
        if (parameter % 4 == 0 && parameter < 0x1000)
            return "offset";
        simple->cause = "SEMAPHORE_1";
        return NULL;
    case 0x80:
        return "event";
    case 0x68:
    case 0x6c:
        simple->cause = "SEMAPHORE_2";
        return NULL;
    case 0x00:
    case 0x60:
        simple->cause = "NO_HASH";
        return NULL;
    default:
        if (simple->method < 0x100)
            simple->cause = "NON_CACHE";
        else if (simple->method / 0x80 == 3)
            simple->cause = "NO_HASH";
        else
            simple->cause = "EMPTY_SUBCHANNEL";
        return NULL;
    }
}

/* S21: a call. */
static void simple_call(struct simple *simple, uint32_t target)
{
    if (simple->inside)
        simple->cause = "CALL";
    if (simple->cause != NULL)
        return;
    simple->back = simple->get;
    simple->inside = true;
    simple->get = target;
}

/* S22: a return. */
static void simple_return(struct simple *simple)
{
    if (!simple->inside)
        simple->cause = "RETURN";
    if (simple->cause != NULL)
        return;
    simple->get = simple->back;
    simple->inside = false;
}

/* S16, S17: a run. */
static void simple_run(struct simple *simple, uint32_t word)
{
    if ((word & 0x1ffc0000) == 0)
        return;
    simple->left = word >> 18 & 2047;
    simple->subchannel = word >> 13 & 7;
    simple->method = word & 0x1ffc;
    simple->rise = (word & 0x40000000) == 0 ? 4 : 0;
}

/* W22, W23, S33: a reserved word, which is that of a form only where it would be a long form or an SLI
 * conditional. */
static void simple_reserved(struct simple *simple, uint32_t word)
{
    simple->cause = "RESERVED_CMD";
    if (word / 0x10000 == 3 && word % 4 == 0)
        simple->why = "MODE";
    else if (word / 0x10000 == 1 && word % 16 == 0)
        simple->why = "SLI";
    else
        simple->why = "FORM";
}

/* S20, S21, S22, S23: a command; the read address is past its word. */
static void simple_command(struct simple *simple, uint32_t word)
{
    uint32_t target = word & 0xfffffffc;

    if (word % 4 == 1)
        simple->get = target;
    else if (word % 4 == 2)
        simple_call(simple, target);
    else if (word == 0x00020000)
        simple_return(simple);
    else if ((word & 0xe0000003) == 0x20000000)
        simple->get = target - 0x20000000;
    else if ((word & 0xa0030003) == 0)
        simple_run(simple, word);
    else
        simple_reserved(simple, word);
}

/* S10, S11, S14, S25, T3, T4: one step and its line. */
static void simple_step(struct simple *simple, uint32_t step)
{
    uint32_t get = simple->get;
    uint32_t method = simple->method;
    const char *kind;
    uint32_t word;

    want("step=%" PRIu32 " get=%" PRIu32 " kind=", step, get);
    if (get >= input_length) {
        simple->cause = "PROTECTION";
        want("error\n");
        return;
    }
    word = given_word(get);
    simple->get += 4;
    if (simple->left == 0) {
        simple_command(simple, word);
        want(simple->cause == NULL ? "command\n" : "error\n");
        return;
    }
    kind = simple_parameter(simple, word);
    simple->left--;
    simple->method = (method + simple->rise) % 0x2000;
    if (kind == NULL)
        want("error\n");
    else
        want("%s subc=%" PRIu32 " mthd=%" PRIu32 " param=%" PRIu32 "\n", kind, simple->subchannel, method,
             word);
}

/* T1, T6, T7, T11: the text of a whole run. */
static void want_second_reading(void)
{
    struct simple simple = {0};
    uint32_t step = 0;

    want_nothing();
    while (step < 65536 && simple.get != input_length && simple.cause == NULL)
        simple_step(&simple, ++step);
    if (simple.cause != NULL)
        want("end=error cause=%s", simple.cause);
    else
        want(simple.get == input_length ? "end=idle" : "end=budget");
    if (simple.why != NULL)
        want(" why=%s", simple.why);
    want(" steps=%" PRIu32 " get=%" PRIu32 " ref=%" PRIu32 "\n", step, simple.get, simple.ref);
}

/* A word for a place that is likely to let a run go on: a run of a method, most of which don't stop it, a
 * jump or a call, most of them forward, a return, or any word. */
static uint32_t draw_word_at(struct draw *draw, uint32_t place)
{
    static const uint32_t methods[] = {0x50, 0x50, 0x64, 0x80, 0x80, 0x5c, 0x7c, 0x00, 0x68, 0xfc, 0x180};
    uint32_t target = 4 * (place + 1 + draw_below(draw, 4));
    uint32_t method = draw_among(draw, methods, sizeof methods / sizeof methods[0]);
    uint32_t parameters = draw_below(draw, 4);
    uint32_t subchannel = draw_below(draw, 8);
    uint32_t form = draw_once_in(draw, 4) ? 0 : 0x40000000;

    if (draw_once_in(draw, 24))
        target = 4 * draw_below(draw, place + 1);
    switch (draw_below(draw, 12)) {
    case 0:
        return target | 1;
    case 1:
        return target | 0x20000000;
    case 2:
    case 3:
        return target | 2;
    case 4:
        return 0x00020000;
    case 5:
        return draw_word(draw);
    case 6:
        return 4 * draw_below(draw, 0x420);
    default:
        return form | parameters << 18 | subchannel << 13 | method;
    }
}

/* T11: what the comment at the head says of kinds, causes and whys, and the second reading. */
static void test_drawn(struct draw *draw)
{
    static const uint32_t reached[] = {KIND_COMMAND, KIND_REF, KIND_EVENT, KIND_OFFSET, KIND_ERROR};
    uint32_t count = draw_below(draw, 24);
    struct traced traced;

    give_nothing();
    for (uint32_t i = 0; i < count; i++)
        give_word(draw_word_at(draw, i));
    want_second_reading();
    traced = prints_wanted("the second reading");
    for (unsigned i = 0; i < sizeof reached / sizeof reached[0]; i++)
        traced.kinds[reached[i]] = 0;
    for (uint32_t kind = 0; kind <= KIND_LAST; kind++)
        check(traced.kinds[kind] == 0, "no other kinds");
    check(traced.pusher_error != PUSHER_IB, "no other causes");
    check(traced.puller_error <= PULLER_SEMAPHORE_2, "no other causes");
    check(traced.pusher_why != WHY_LEVEL, "no other whys");
}

/* ---- The program ---- */

int main(void)
{
    struct draw draw = {0x7ace};

    test_rows();
    test_lengths();
    test_most_words();
    test_budget();
    test_budget_with_ref();
    test_last_step();
    test_lines();
    test_ends();
    for (unsigned i = 0; i < 2000; i++)
        test_drawn(&draw);
    printf("trace model: %" PRIu64 " checks\n", checks);
    return 0;
}

/* Writes an input for step_bench and its twin: step_words SHAPE COUNT STEPS. The shapes:
 *
 *   mixed       runs of up to 15 parameters, jumps over a few words, commands without parameters
 *   parameters  runs of 1,023 parameters
 *   jumps       jumps alone, far apart, that come to every place in turn and never to the end
 *
 * A run that the end cuts short makes the channel idle. */
#include <inttypes.h>
#include <stdio.h>
#include <stdlib.h>
#include <string.h>

#include "../tests/model/draw.h"
#include "words.h"

/* A level that has every form of a command but the SLI conditional; the handle of the one object; and
 * methods: the one that binds, the one that sets the reference counter, and the first of those that are
 * forwarded without a lookup. */
enum { LEVEL = 3, HANDLE = 1, BIND = 0x00, REFERENCE = 0x50, FORWARDED = 0x200 };

static uint32_t words[SIZE_LIMIT];
static uint32_t room, end;

/* A word more, if there is room. */
static void put(uint32_t word)
{
    if (end < room)
        words[end++] = word;
}

static void put_parameters(uint32_t count)
{
    for (uint32_t i = 0; i < count; i++)
        put(i);
}

/* Without an engine the first method that is forwarded would stop the channel. */
static void put_bind(void)
{
    put(increasing(1, BIND));
    put(HANDLE);
}

/* A jump over so many words, not past the end. */
static void put_jump(uint32_t count)
{
    uint32_t target = end + 1 + count;

    put(jump(target < room ? target : room));
    put_parameters(count);
}

static void put_any(struct draw *draw)
{
    uint32_t count = draw_below(draw, 15) + 1;

    switch (draw_below(draw, 8)) {
    case 0:
        put(increasing(0, FORWARDED));
        break;
    case 1:
        put(non_increasing(1, REFERENCE));
        put(draw_number(draw));
        break;
    case 2:
    case 3:
        put_jump(count / 2);
        break;
    case 4:
        put(non_increasing(count, FORWARDED));
        put_parameters(count);
        break;
    default:
        put(increasing(count, FORWARDED));
        put_parameters(count);
        break;
    }
}

static void put_mixed(void)
{
    struct draw draw = {0x57e9};

    put_bind();
    while (end < room)
        put_any(&draw);
}

static void put_runs(void)
{
    put_bind();
    while (end < room) {
        put(increasing(1023, FORWARDED));
        put_parameters(1023);
    }
}

/* Each place has the one that lies an odd number of words on, which is every place in turn where their number
 * is a power of two. */
static void put_jumps(void)
{
    while (end < room)
        put(jump((end + (room / 2 | 1)) % room));
}

static void write_word(uint32_t word)
{
    for (unsigned i = 0; i < 4; i++)
        putchar((int)(word >> 8 * i & 0xff));
}

static int usage(void)
{
    fprintf(stderr, "usage: step_words mixed|parameters|jumps COUNT STEPS\n");
    return 1;
}

int main(int count, char **arguments)
{
    if (count != 4)
        return usage();
    room = (uint32_t)strtoul(arguments[2], NULL, 10);
    if (room > SIZE_LIMIT)
        return usage();
    if (strcmp(arguments[1], "mixed") == 0)
        put_mixed();
    else if (strcmp(arguments[1], "parameters") == 0)
        put_runs();
    else if (strcmp(arguments[1], "jumps") == 0)
        put_jumps();
    else
        return usage();
    write_word(LEVEL);
    write_word((uint32_t)strtoul(arguments[3], NULL, 10));
    for (uint32_t i = 0; i < end; i++)
        write_word(words[i]);
    return ferror(stdout) || fflush(stdout) != 0;
}

/* Sound and wild submissions. */
#include "gate_draw.h"

/* ---- Numbers ---- */

/* G32: any number but 0. */
uint32_t draw_enabled(struct draw *draw)
{
    static const uint32_t numbers[] = {1, 1, 1, 2, 256, 0x80000000, UINT32_MAX};

    return draw_among(draw, numbers, sizeof numbers / sizeof numbers[0]);
}

/* Levels 0 and 1 less often, as they have no calls. */
static void draw_level(struct draw *draw, struct given *given)
{
    static const uint32_t levels[] = {0, 1, 2, 2, 3, 3, 4, 4, 5, 5};
    bool is_enabled = draw_once_in(draw, 2);

    given->level = draw_among(draw, levels, sizeof levels / sizeof levels[0]);
    given->sli = given->level >= 3 && is_enabled ? draw_enabled(draw) : 0;
}

/* Half of the time 0, a quarter 0xff, else any byte. */
static void draw_fill(struct draw *draw, struct given *given)
{
    uint32_t any = draw_number(draw) & 0xff;
    uint32_t fills[] = {0, 0, 0xff, any};

    fill_permit(given, (uint8_t)draw_among(draw, fills, 4));
}

/* A method's number: those that some levels have, the ends of what they have, the last ones, or any. */
static uint32_t draw_method(struct draw *draw)
{
    static const uint32_t methods[] = {0x00,  0x10,  0x20,  0x50,  0x60,   0x68,   0x80,   0x100,
                                       0x120, 0x180, 0x1fc, 0x800, 0x1fe0, 0x1ff8, 0x1ffc, 0x1ffc};

    if (draw_once_in(draw, 5))
        return draw_below(draw, METHODS);
    return draw_among(draw, methods, sizeof methods / sizeof methods[0]) / 4;
}

/* How many parameters a command has, at most so many. */
static uint32_t draw_parameters(struct draw *draw, uint32_t most)
{
    uint32_t counts[] = {draw_below(draw, METHODS), 0, 1, 1, 1, 1, 2, 2, 2, 3, 3, 4};
    uint32_t count = draw_among(draw, counts, sizeof counts / sizeof counts[0]);

    return count < most ? count : most;
}

/* ---- Sound words ---- */

/* The words under way. The commands of a block are marked for the same states. */
struct text {
    struct draw *draw;
    struct given *given;
    uint32_t count;
    uint8_t mark;
};

static void emit(struct text *text, uint32_t word, uint8_t mark)
{
    set_word(text->given, text->count, word);
    text->given->map[text->count++] = mark;
}

/* How many of `count` methods from one on the level has, up to the first that it lacks or to 0x1ffc. */
static uint32_t present_count(uint32_t level, uint32_t method, uint32_t count)
{
    uint32_t present = 0;

    while (present < count && method + present < METHODS && model_present(level, method + present))
        present++;
    return present;
}

/* G13: the method of a run of so many parameters, at times the one with which they come to 0x1ffc. */
static uint32_t draw_run_method(struct draw *draw, uint32_t count)
{
    uint32_t method = draw_method(draw);

    return count != 0 && draw_once_in(draw, 16) ? METHODS - count : method;
}

/* G7, G13, G29: a run as long as the level has its methods, an increasing one up to 0x1ffc; where the level
 * lacks the first, the count is 0. */
static void emit_run(struct text *text, uint32_t room)
{
    uint32_t level = text->given->level;
    bool is_increasing = level == 0 || draw_once_in(text->draw, 2);
    uint32_t form = is_increasing ? 0 : 0x40000000;
    uint32_t subchannel = draw_below(text->draw, 8);
    uint32_t count = draw_parameters(text->draw, room - 1);
    uint32_t method = draw_run_method(text->draw, count);
    uint32_t present = present_count(level, method, count);

    if (is_increasing || present == 0)
        count = present;
    emit(text, form | count << 18 | subchannel << 13 | method << 2, text->mark);
    for (uint32_t i = 0; i < count; i++)
        emit(text, draw_word(text->draw), 0);
}

/* A command that takes at most `room` words. Calls and jumps get their targets when all words stand. */
static void emit_command(struct text *text, uint32_t room)
{
    uint32_t choice = draw_below(text->draw, 8);

    if (choice == 0 && text->given->sli != 0)
        emit(text, 0x00010000 | (draw_number(text->draw) & 0xfff0), text->mark);
    else if (choice <= 2 && text->given->level >= 2 && text->mark == STATE_MAIN)
        emit(text, 2, text->mark);
    else
        emit_run(text, room);
}

/* What ends a block without going on to the next: a return or a jump, old or new. */
static void emit_ending(struct text *text)
{
    bool is_new = text->given->level >= 2;

    if (is_new && text->mark == STATE_SUBROUTINE && !draw_once_in(text->draw, 4))
        emit(text, 0x00020000, text->mark);
    else
        emit(text, is_new && draw_once_in(text->draw, 2) ? 1 : 0x20000000, text->mark);
}

/* A block of so many words; only at the end of all words may it do without an ending. */
static void emit_block(struct text *text, uint32_t length, bool has_ending)
{
    uint32_t last = text->count + length - (has_ending ? 1 : 0);

    while (text->count < last)
        emit_command(text, last - text->count);
    if (has_ending)
        emit_ending(text);
}

/* G2, G22: the states of the next block. Place 0 is main. Words for both states neither call nor return. */
static uint8_t draw_mark(struct text *text)
{
    static const uint32_t first[] = {STATE_MAIN, STATE_MAIN, STATE_MAIN, STATE_MAIN, STATE_BOTH};
    static const uint32_t others[] = {STATE_MAIN, STATE_MAIN, STATE_SUBROUTINE, STATE_SUBROUTINE,
                                      STATE_BOTH};

    return (uint8_t)draw_among(text->draw, text->count == 0 ? first : others, 5);
}

/* Blocks, with words between them that are no starts. */
static void emit_blocks(struct text *text, uint32_t count)
{
    static const uint32_t limits[] = {3, 6, 6, 12, 12, 12, 24, 3000};

    while (text->count < count) {
        uint32_t left = count - text->count;
        uint32_t limit = draw_among(text->draw, limits, sizeof limits / sizeof limits[0]);
        uint32_t length = 1 + draw_below(text->draw, limit < left ? limit : left);

        text->mark = draw_mark(text);
        if (text->count != 0 && draw_once_in(text->draw, 6))
            emit(text, draw_word(text->draw), 0);
        else if (length == left && text->mark == STATE_MAIN)
            emit_block(text, length, draw_once_in(text->draw, 4));
        else
            emit_block(text, length, true);
    }
}

/* G27, G28: a jump goes to a start that is marked as it is itself, more often on than back; in main also to
 * the end. A call where there is no subroutine becomes a command with count 0. */
static void draw_target(struct draw *draw, struct given *given, uint32_t place)
{
    uint32_t count = word_count(given);
    bool goes_on = draw_once_in(draw, 2);
    uint32_t from = goes_on ? place + draw_below(draw, count - place) : draw_below(draw, count);
    bool is_end = given->map[place] == STATE_MAIN && draw_once_in(draw, 4);

    if (is_jump(given, place)) {
        uint32_t target = find_mark(given, from, given->map[place]);

        set_target(given, place, is_end ? count : target != NOWHERE ? target : place);
    } else if (is_call(given, place)) {
        uint32_t target = find_mark(given, from, STATE_SUBROUTINE);

        set_target(given, place, target);
        if (target == NOWHERE)
            set_word(given, place, 0);
    }
}

void draw_sound(struct draw *draw, struct given *given, uint32_t count)
{
    struct text text = {draw, given, 0, 0};

    draw_level(draw, given);
    draw_fill(draw, given);
    emit_blocks(&text, count);
    set_count(given, count);
    for (uint32_t place = 0; place < count; place++) {
        if (given->map[place] == 0)
            continue;
        draw_target(draw, given, place);
        if (is_run(given, place))
            permit_run(given, place);
    }
}

/* ---- Wild words ---- */

uint32_t draw_wild_word(struct draw *draw, uint32_t count)
{
    uint32_t any = draw_word(draw);
    uint32_t target = 4 * draw_below(draw, count + 2);
    uint32_t parameters = draw_below(draw, 4);
    uint32_t run = parameters << 18 | (any & 0xe000) | draw_method(draw) << 2;

    switch (draw_below(draw, 12)) {
    case 0:
    case 1:
        return any;
    case 2:
        return 0x20000000 | target;
    case 3:
        return target | 1;
    case 4:
    case 5:
        return target | 2;
    case 6:
        return 0x00020000;
    case 7:
        return 0x00010000 | (any & 0xfff0);
    case 8:
        return 0x40000000 | run;
    default:
        return run;
    }
}

/* A map byte, of one of five kinds of map. */
static uint8_t draw_map_byte(struct draw *draw, uint32_t kind)
{
    uint32_t any = draw_number(draw) & 0xff;

    switch (kind) {
    case 0:
        return STATE_MAIN;
    case 1:
        return STATE_BOTH;
    case 2:
        return (uint8_t)(any % 5);
    case 3:
        return draw_once_in(draw, 60) ? (uint8_t)any : STATE_BOTH;
    default:
        return (uint8_t)(any % 4);
    }
}

void draw_wild(struct draw *draw, struct given *given, uint32_t count)
{
    uint32_t kind = draw_below(draw, 5);
    uint32_t others = draw_below(draw, 40);

    draw_level(draw, given);
    draw_fill(draw, given);
    set_count(given, count);
    for (uint32_t place = 0; place < count; place++) {
        set_word(given, place, draw_wild_word(draw, count));
        given->map[place] = draw_map_byte(draw, kind);
    }
    for (uint32_t i = 0; i < others; i++) {
        uint32_t at = draw_below(draw, PERMIT_BYTES);

        given->permit[at] = (uint8_t)draw_number(draw);
    }
    /* Place 0 is mostly main, as little else is looked at where it isn't. */
    if (count != 0 && !draw_once_in(draw, 8))
        given->map[0] |= STATE_MAIN;
}

/* ---- Tangled words ---- */

/* H12: a third of all bytes are marks, or none. */
void draw_map(struct draw *draw, struct given *given)
{
    for (size_t place = 0; place < given->map_length; place++) {
        uint32_t any = draw_number(draw) & 0xff;
        uint32_t bytes[] = {any % 4, any, 4 + any % 252};

        given->map[place] = (uint8_t)draw_among(draw, bytes, 3);
    }
}

/* A target among so many words, seldom the end or past it. */
static uint32_t draw_tangle_target(struct draw *draw, uint32_t count)
{
    return 4 * draw_below(draw, draw_once_in(draw, 4) ? count + 2 : count);
}

/* G13: half of them go to a method that every level has; the others come near 0x1ffc, or would go past. */
uint32_t draw_tangle_run(struct draw *draw)
{
    static const uint32_t methods[] = {0x100, 0x100, 0x100, 0x1ff8, 0x1ffc, 0x1ffc};
    uint32_t parameters = draw_below(draw, 3) << 18;
    uint32_t subchannel = draw_below(draw, 8) << 13;

    return parameters | subchannel | draw_among(draw, methods, sizeof methods / sizeof methods[0]);
}

/* G27: calls, jumps, returns, and commands that go on. Seldom a word that may be anything. */
static uint32_t draw_tangle_word(struct draw *draw, uint32_t count)
{
    uint32_t target = draw_tangle_target(draw, count);
    uint32_t run = draw_tangle_run(draw);

    switch (draw_below(draw, 16)) {
    case 0:
    case 1:
    case 2:
    case 3:
        return target | 2;
    case 4:
    case 5:
        return target | 1;
    case 6:
        return 0x20000000 | target;
    case 7:
        return 0x00020000;
    case 8:
        return draw_wild_word(draw, count);
    case 9:
    case 10:
        return 0x40000000 | run;
    default:
        return run;
    }
}

void draw_tangle(struct draw *draw, struct given *given, uint32_t count)
{
    given->level = 2 + draw_below(draw, 4);
    given->sli = given->level >= 3 && draw_once_in(draw, 2) ? draw_enabled(draw) : 0;
    fill_permit(given, 0xff);
    if (draw_once_in(draw, 3))
        given->permit[256 * draw_below(draw, 8) + 0x100 / 32] = 0xfe;
    set_count(given, count);
    for (uint32_t place = 0; place < count; place++)
        set_word(given, place, draw_tangle_word(draw, count));
    draw_map(draw, given);
}

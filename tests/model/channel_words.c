/* The words of a run: commands that mostly make sense, so that a run goes on, then an ending. */
#include "channel_vectors.h"
#include "pattern.h"

/* The words under way, with what a run will know when it gets there, as far as it goes straight on. */
struct text {
    struct draw *draw;
    struct setting setting;
    uint32_t sli_mask;
    struct memory *memory;
    /* Bit n is set if subchannel n is bound to an engine. */
    uint32_t bound;
    /* Whether semaphores may be used; whether one is bound and has its offset; whether methods are taken. */
    bool may_semaphore;
    bool has_semaphore;
    bool is_active;
    /* Whether the words are a subroutine's; the place of the one that can be called, or 0; the place after
     * it, where the other words start. */
    bool is_inside;
    uint32_t subroutine;
    uint32_t start;
};

static void emit(struct text *text, uint32_t word)
{
    struct memory *memory = text->memory;

    if (memory->word_count < GIVEN)
        memory->words[memory->word_count++] = word;
}

/* ---- Objects ---- */

/* The table has a software object, one that is no good for semaphores, and good ones after them. */
enum { SOFTWARE, ODD, GOOD };

/* P1, P2: small handles, so that they also come by chance, 0 among them; large ones now and then. */
static void draw_table(struct draw *draw, struct memory *memory)
{
    uint32_t objects = GOOD + 1 + draw_below(draw, 2);
    uint32_t first = draw_once_in(draw, 4) ? draw_number(draw) : draw_below(draw, 3);

    memory->table_count = ENTRY_WORDS * objects;
    for (uint32_t i = 0; i < objects; i++) {
        uint32_t *entry = memory->table + ENTRY_WORDS * i;

        entry[0] = first + i;
        entry[1] = 1 + draw_below(draw, 31);
        entry[2] = 1 + draw_below(draw, 0xffff);
        entry[3] = 0x30002;
        /* P1: bits without a meaning. */
        if (draw_once_in(draw, 8))
            entry[1] |= draw_number(draw) << 5;
        if (draw_once_in(draw, 8))
            entry[3] |= draw_number(draw) << 18;
    }
    memory->table[ENTRY_WORDS * SOFTWARE + 1] &= ~UINT32_C(0x1f);
    /* Class, write-only or page table wrong, or address 0. */
    if (draw_once_in(draw, 4))
        memory->table[ENTRY_WORDS * ODD + 2] = 0;
    else
        memory->table[ENTRY_WORDS * ODD + 3] ^= UINT32_C(1) << draw_below(draw, 18);
}

static uint32_t handle(const struct text *text, uint32_t object)
{
    return text->memory->table[ENTRY_WORDS * object];
}

static uint32_t good_handle(struct text *text)
{
    return handle(text, GOOD + draw_below(text->draw, text->memory->table_count / ENTRY_WORDS - GOOD));
}

/* A number that is the handle of no object, nor near one. */
static uint32_t no_handle(struct text *text)
{
    return handle(text, SOFTWARE) + 100 + draw_below(text->draw, 100);
}

/* ---- Commands ---- */

/* W1, W2, W5, W14: a command of so many parameters, increasing where that matters, else in any form that
 * there is. */
static void emit_methods(struct text *text, uint32_t count, uint32_t subchannel, uint32_t method,
                         bool increasing)
{
    uint32_t form = draw_below(text->draw, 4);
    uint32_t fields = subchannel << 13 | method;

    if (!increasing && text->setting.mode == MODE_IB && form == 0) {
        uint32_t upper = draw_below(text->draw, 256) << 24;

        emit(text, 0x00030000 | fields);
        emit(text, upper | count);
    } else if (!increasing && text->setting.level >= 1 && form < 3) {
        emit(text, 0x40000000 | count << 18 | fields);
    } else {
        emit(text, count << 18 | fields);
    }
}

/* A command with its one parameter. */
static void emit_method(struct text *text, uint32_t subchannel, uint32_t method, uint32_t parameter)
{
    emit_methods(text, 1, subchannel, method, false);
    emit(text, parameter);
}

static uint32_t draw_subchannel(struct text *text)
{
    return draw_below(text->draw, SUBCHANNELS);
}

/* S17: a command with count 0. */
static void emit_nothing(struct text *text)
{
    emit(text, draw_number(text->draw) & 0x0000fffc);
}

/* P4: an object that can be bound. */
static void emit_bind(struct text *text)
{
    uint32_t subchannel = draw_subchannel(text);

    emit_method(text, subchannel, 0x00, good_handle(text));
    if (text->is_active)
        text->bound |= UINT32_C(1) << subchannel;
}

/* A subchannel that is bound; there must be one. */
static uint32_t draw_bound(struct text *text)
{
    uint32_t subchannel = draw_subchannel(text);

    while ((text->bound >> subchannel & 1) == 0)
        subchannel = (subchannel + 1) % SUBCHANNELS;
    return subchannel;
}

/* P18, P19: methods for the engine; their parameters are handles, as some are looked up. */
static void emit_forward(struct text *text)
{
    static const uint32_t methods[] = {0x100, 0x17c, 0x180, 0x1bc, 0x1f8, 0x1fc, 0x200, 0x1ff4};
    uint32_t method = draw_among(text->draw, methods, sizeof methods / sizeof methods[0]);
    uint32_t count = 1 + draw_below(text->draw, 3);
    bool increasing = draw_once_in(text->draw, 2);

    if (text->bound == 0) {
        emit_bind(text);
        return;
    }
    emit_methods(text, count, draw_bound(text), method, increasing);
    for (uint32_t i = 0; i < count; i++)
        emit(text, good_handle(text));
}

/* S25, P4: a run from 0x1ffc on, which binds. */
static void emit_wrap(struct text *text)
{
    if (text->bound == 0) {
        emit_bind(text);
        return;
    }
    emit_methods(text, 2, draw_bound(text), 0x1ffc, true);
    emit(text, draw_number(text->draw));
    emit(text, good_handle(text));
}

/* P6: the reference counter, where the level has it. */
static void emit_ref(struct text *text)
{
    uint32_t subchannel = draw_subchannel(text);

    if (text->setting.level >= 1)
        emit_method(text, subchannel, 0x50, draw_any_number(text->draw));
    else
        emit_forward(text);
}

/* P7, P8: methods without effect, where the level has them. */
static void emit_events(struct text *text)
{
    uint32_t count = 1 + draw_below(text->draw, 2);

    if (text->setting.level < 3) {
        emit_ref(text);
    } else if (text->setting.level < 5 || draw_once_in(text->draw, 3)) {
        emit_method(text, 1, 0x80, count);
    } else {
        emit_methods(text, count, 2, 0x28 - 4 * count, true);
        for (uint32_t i = 0; i < count; i++)
            emit(text, draw_any_number(text->draw));
    }
}

/* Values of which there are few, so that an acquire may find its own. */
static uint32_t draw_value(struct text *text)
{
    return draw_below(text->draw, 3);
}

/* P10, P11, P12: the semaphore's object and offset, then at times an acquire and a release in the same
 * run. */
static void emit_semaphore_setup(struct text *text)
{
    uint32_t count = 2 + draw_below(text->draw, 3);
    uint32_t semaphores = text->memory->semaphore_count;

    emit_methods(text, count, draw_subchannel(text), 0x60, true);
    emit(text, good_handle(text));
    emit(text, 4 * draw_below(text->draw, semaphores));
    for (uint32_t i = 2; i < count; i++)
        emit(text, draw_value(text));
    if (text->is_active)
        text->has_semaphore = true;
}

/* P15, P17: acquire or release, once the semaphore is set. */
static void emit_semaphore(struct text *text)
{
    uint32_t method = draw_once_in(text->draw, 2) ? 0x68 : 0x6c;
    uint32_t subchannel = draw_subchannel(text);

    if (text->setting.level < 2 || !text->may_semaphore)
        emit_ref(text);
    else if (!text->has_semaphore || draw_once_in(text->draw, 4))
        emit_semaphore_setup(text);
    else
        emit_method(text, subchannel, method, draw_value(text));
}

/* ---- Long semaphores ---- */

/* P29: an address from which on four words are lent. */
static uint32_t draw_long_address(struct text *text)
{
    return 4 * draw_below(text->draw, text->memory->semaphore_count - LONG_WORDS + 1);
}

/* P30: the values of old semaphores, so that they may be found, or any; around the ends of 32 bits both have
 * neighbours. */
static uint32_t draw_sequence(struct text *text)
{
    uint32_t any = draw_any_number(text->draw);

    return draw_once_in(text->draw, 3) ? any : draw_value(text);
}

static uint32_t draw_operation(struct text *text)
{
    static const uint32_t operations[] = {TRIGGER_EQUAL, TRIGGER_RELEASE, TRIGGER_GREATER};

    return draw_among(text->draw, operations, sizeof operations / sizeof operations[0]);
}

/* P8, P25, P26, P27, P28: all of it in one run, with the two methods behind it at times. */
static void emit_long_run(struct text *text)
{
    uint32_t count = 4 + draw_below(text->draw, 3);

    emit_methods(text, count, draw_subchannel(text), 0x10, true);
    emit(text, 0);
    emit(text, draw_long_address(text));
    emit(text, draw_sequence(text));
    emit(text, draw_operation(text));
    for (uint32_t i = 4; i < count; i++)
        emit(text, draw_number(text->draw));
}

/* P25, P26: another address, at times with a high half that doesn't stay; either half is set beside the
 * other. */
static void emit_long_address(struct text *text)
{
    uint32_t subchannel = draw_subchannel(text);

    if (draw_once_in(text->draw, 3))
        emit_method(text, subchannel, 0x10, 1 + draw_below(text->draw, 255));
    emit_method(text, subchannel, 0x14, draw_long_address(text));
    emit_method(text, subchannel, 0x10, 0);
}

/* P27, P28: triggers of one sequence, the first of a run of two that has it or by itself. */
static void emit_triggers(struct text *text)
{
    uint32_t subchannel = draw_subchannel(text);

    if (draw_once_in(text->draw, 2)) {
        emit_method(text, subchannel, 0x1c, draw_operation(text));
        return;
    }
    emit_methods(text, 2, subchannel, 0x18, true);
    emit(text, draw_sequence(text));
    emit(text, draw_operation(text));
}

/* P25, P26, P27, P28, P29, P30: long semaphores, where the level has them, else old ones. They need no object
 * and no offset. */
static void emit_long(struct text *text)
{
    static void (*const kinds[])(struct text *) = {emit_long_run, emit_long_address, emit_triggers,
                                                   emit_triggers};

    if (text->setting.level < 5)
        emit_semaphore(text);
    else
        kinds[draw_below(text->draw, sizeof kinds / sizeof kinds[0])](text);
}

/* ---- The flow of commands ---- */

/* S19, S24: a conditional, from which on methods are taken or discarded. */
static void emit_conditional(struct text *text)
{
    uint32_t mask = draw_number(text->draw) >> 20;

    /* Not inside a subroutine, as it comes in front of the words that call it. */
    if (!text->setting.sli || text->is_inside) {
        emit_forward(text);
        return;
    }
    /* Not for long inactive, where the mask has a bit at all. */
    if (!text->is_active)
        mask = 0xfff;
    else if (draw_once_in(text->draw, 2))
        mask &= ~text->sli_mask;
    text->is_active = (mask & text->sli_mask) != 0;
    emit(text, 0x00010000 | mask << 4);
}

/* W6, W7: the word of a jump, old or new; the target lies within the words. */
static uint32_t jump_to(struct text *text, uint32_t place)
{
    bool is_old = text->setting.level < 2 || draw_once_in(text->draw, 2);

    return is_old ? 0x20000000 | 4 * place : 4 * place | 1;
}

/* S20: a jump over words that would stop the channel. */
static void emit_jump(struct text *text)
{
    uint32_t skipped = draw_below(text->draw, 3);

    if (text->setting.mode == MODE_IB) {
        emit_ref(text);
        return;
    }
    emit(text, jump_to(text, text->memory->word_count + 1 + skipped));
    for (uint32_t i = 0; i < skipped; i++)
        emit(text, draw_number(text->draw) | 3);
}

/* S21: a call, where there is a subroutine. */
static void emit_call(struct text *text)
{
    if (text->subroutine != 0 && !text->is_inside)
        emit(text, 4 * text->subroutine | 2);
    else
        emit_jump(text);
}

/* A word that may stop the channel, but mostly doesn't. */
static void emit_any(struct text *text)
{
    if (draw_once_in(text->draw, 8))
        emit(text, draw_word(text->draw));
    else
        emit_nothing(text);
}

/* Commands until there are so many words. */
static void emit_commands(struct text *text, uint32_t end)
{
    static void (*const kinds[])(struct text *) = {
        emit_bind,      emit_bind,      emit_forward,   emit_forward,     emit_forward,
        emit_wrap,      emit_ref,       emit_ref,       emit_events,      emit_events,
        emit_semaphore, emit_semaphore, emit_semaphore, emit_call,        emit_jump,
        emit_semaphore, emit_nothing,   emit_any,       emit_conditional, emit_conditional,
        emit_long,      emit_long,      emit_long,      emit_long,
    };

    while (text->memory->word_count < end)
        kinds[draw_below(text->draw, sizeof kinds / sizeof kinds[0])](text);
}

/* S21, S22: in NV04-style from level 2 on, a subroutine and a jump over it. What it binds isn't bound until
 * it is called. */
static void emit_subroutine(struct text *text)
{
    if (text->setting.mode == MODE_IB || text->setting.level < 2 || draw_once_in(text->draw, 3))
        return;
    emit_nothing(text);
    text->subroutine = text->memory->word_count;
    text->is_inside = true;
    emit_commands(text, 5 + draw_below(text->draw, 6));
    emit(text, 0x00020000);
    text->is_inside = false;
    text->bound = 0;
    text->has_semaphore = false;
    text->start = text->memory->word_count;
    text->memory->words[0] = jump_to(text, text->start);
}

/* ---- Endings ---- */

static void end_plain(struct text *text)
{
    emit_nothing(text);
}

/* In IB mode the entries go round anyway. */
static void end_loop(struct text *text)
{
    if (text->setting.mode == MODE_NV04)
        emit(text, jump_to(text, text->start));
}

/* S21: a call of the next word, and another call inside. */
static void end_call(struct text *text)
{
    uint32_t place = text->memory->word_count;

    emit(text, 4 * (place + 1) | 2);
    emit_nothing(text);
    emit(text, 4 * place | 2);
}

/* S24: a method that some levels lack, first of its run or met by the way. */
static void end_non_cache(struct text *text)
{
    static const uint32_t methods[] = {0x04, 0x0c, 0x10, 0x28, 0x50, 0x54, 0x60, 0x70, 0x80, 0x84, 0xfc};

    emit_methods(text, 3, 1, draw_among(text->draw, methods, sizeof methods / sizeof methods[0]), true);
    for (unsigned i = 0; i < 3; i++)
        emit(text, good_handle(text));
}

/* S22: a return outside of a subroutine. */
static void end_return(struct text *text)
{
    emit(text, 0x00020000);
}

/* S23, S33: a word that is reserved, for any why that the setting has. */
static void end_reserved(struct text *text)
{
    uint32_t why = draw_why(text->draw, text->setting);

    emit(text, draw_reserved(text->draw, text->setting, why));
}

/* P2, P4: a handle without an object, to be bound. */
static void end_no_bind(struct text *text)
{
    emit_method(text, 5, 0x00, no_handle(text));
}

/* P2, P19: the same for the engine. */
static void end_no_forward(struct text *text)
{
    uint32_t method = 0x180 + 4 * draw_below(text->draw, 32);

    emit_method(text, 5, method, no_handle(text));
}

/* P2, P9: the same for semaphores. */
static void end_no_dma(struct text *text)
{
    emit_method(text, 6, 0x60, no_handle(text));
}

/* P5: an object of engine 0. */
static void end_software(struct text *text)
{
    emit_method(text, draw_subchannel(text), 0x00, handle(text, SOFTWARE));
}

/* P18: a subchannel that nothing was bound to; where all are bound, the software object. */
static void end_empty(struct text *text)
{
    for (uint32_t subchannel = 0; subchannel < SUBCHANNELS; subchannel++)
        if ((text->bound >> subchannel & 1) == 0) {
            emit_method(text, subchannel, 0x200, draw_number(text->draw));
            return;
        }
    end_software(text);
}

/* P13, P15, P17: acquire or release, whether or not the semaphore is set. */
static void end_semaphore(struct text *text)
{
    uint32_t method = draw_once_in(text->draw, 2) ? 0x68 : 0x6c;

    emit_method(text, 3, method, draw_value(text));
}

/* P9, P10, P13: an object that is no good for semaphores; at address 0 it is bound, but is none. */
static void end_class(struct text *text)
{
    emit_method(text, 0, 0x60, handle(text, ODD));
    end_semaphore(text);
}

/* P11, P12: an offset with a wrong bit, at some levels or at all. */
static void end_offset(struct text *text)
{
    static const uint32_t offsets[] = {1, 2, 0xffd, 0x1000, 0x1001, 0x10000, 0x10002, 0x20000, 0x80000000};

    emit_method(text, 7, 0x64, draw_among(text->draw, offsets, sizeof offsets / sizeof offsets[0]));
    end_semaphore(text);
}

/* P14: an offset right past the semaphore words, or far past them. */
static void end_past(struct text *text)
{
    uint32_t offset = draw_once_in(text->draw, 2) ? 0xffc : 4 * text->memory->semaphore_count;

    emit_methods(text, 2, 4, 0x60, true);
    emit(text, good_handle(text));
    emit(text, offset);
    end_semaphore(text);
}

/* P25: a high half of more than eight bits. */
static void end_high(struct text *text)
{
    static const uint32_t halves[] = {0x100, 0x101, 0x200, 0x10000, 0x80000000, 0xffffff00, UINT32_MAX};

    emit_method(text, 2, 0x10, draw_among(text->draw, halves, sizeof halves / sizeof halves[0]));
}

/* P26: a low half between words. */
static void end_low(struct text *text)
{
    uint32_t address = draw_long_address(text);

    emit_method(text, 3, 0x14, address + 1 + draw_below(text->draw, 3));
}

/* P28: a number that is no operation, though some of its bits may be one. */
static void end_operation(struct text *text)
{
    static const uint32_t numbers[] = {0, 3, 5, 6, 7, 8, 9, 0x10, 0x12, 0x102, 0x80000001, 0x80000004};

    emit_method(text, 4, 0x1c, draw_among(text->draw, numbers, sizeof numbers / sizeof numbers[0]));
}

/* P29, P30: an address of which not all four words are lent, or none, or only those of its low half. */
static void end_long_past(struct text *text)
{
    bool is_high = draw_once_in(text->draw, 3);
    uint32_t last = 4 * text->memory->semaphore_count - 4 * draw_below(text->draw, LONG_WORDS);

    emit_methods(text, 4, 5, 0x10, true);
    emit(text, is_high ? UINT32_C(1) << draw_below(text->draw, 8) : 0);
    emit(text, is_high ? draw_long_address(text) : last);
    emit(text, draw_sequence(text));
    emit(text, draw_operation(text));
}

static void end_any(struct text *text)
{
    emit(text, draw_word(text->draw));
    emit(text, draw_word(text->draw));
}

/* Whether a setting has what an ending needs. */
static bool ending_fits(struct setting setting, unsigned ending)
{
    switch (ending) {
    case END_CALL:
    case END_RETURN:
        return setting.level >= 2 && setting.mode == MODE_NV04;
    case END_NO_DMA:
    case END_CLASS:
    case END_OFFSET:
    case END_UNSET:
    case END_PAST:
        return setting.level >= 2;
    case END_HIGH:
    case END_LOW:
    case END_OPERATION:
    case END_LONG_PAST:
        return setting.level >= 5;
    default:
        return true;
    }
}

unsigned draw_ending(struct draw *draw, struct setting setting)
{
    unsigned ending = draw_below(draw, ENDINGS);

    /* What loops goes on for long. */
    if (draw_once_in(draw, 8))
        return END_LOOP;
    while (!ending_fits(setting, ending))
        ending = draw_below(draw, ENDINGS);
    return ending;
}

static void (*const endings[ENDINGS])(struct text *) = {
    [END_PLAIN] = end_plain,         [END_LOOP] = end_loop,
    [END_CALL] = end_call,           [END_NON_CACHE] = end_non_cache,
    [END_RETURN] = end_return,       [END_RESERVED] = end_reserved,
    [END_NO_BIND] = end_no_bind,     [END_NO_FORWARD] = end_no_forward,
    [END_NO_DMA] = end_no_dma,       [END_SOFTWARE] = end_software,
    [END_EMPTY] = end_empty,         [END_CLASS] = end_class,
    [END_OFFSET] = end_offset,       [END_UNSET] = end_semaphore,
    [END_PAST] = end_past,           [END_HIGH] = end_high,
    [END_LOW] = end_low,             [END_OPERATION] = end_operation,
    [END_LONG_PAST] = end_long_past, [END_ANY] = end_any,
};

/* ---- IB entries ---- */

/* S10, E1, E4, E5: an entry over so many words from a place on, with any of the bits 0, 1 and 40; one in a
 * few has no size, starts beyond the words, at times with a lower half that doesn't, or goes beyond them. */
static uint64_t draw_entry(struct draw *draw, const struct memory *memory, uint64_t place, uint64_t size)
{
    uint64_t not_main = draw_below(draw, 2);
    uint64_t ignored = draw_once_in(draw, 3) ? draw_below(draw, 4) : 0;
    uint64_t bit40 = draw_once_in(draw, 4);
    uint64_t address = place << 2;

    switch (draw_below(draw, 70)) {
    case 0:
        size = 0;
        break;
    case 1:
        address = (uint64_t)draw_number(draw) << 8;
        break;
    case 2:
        address |= UINT64_C(1) << (32 + draw_below(draw, 8));
        break;
    case 3:
    case 4:
        address = memory->word_count << 2;
        break;
    case 5:
        size = 0x3fffff;
        break;
    case 6:
        size = memory->word_count - place + 1;
        break;
    default:
        break;
    }
    return size << 42 | not_main << 41 | bit40 << 40 | address | ignored;
}

/* S7, S14, E3, E6: entries that cover the words one after the other, wherever commands end, and then start
 * over. */
static void draw_entries(struct draw *draw, const struct setup *setup, struct memory *memory)
{
    uint32_t places = UINT32_C(1) << setup->ib_order;
    uint32_t longest = places <= 4 ? GIVEN : 10;
    uint32_t place = 0;

    memory->entry_count = places < 10 ? places : 10;
    if (draw_once_in(draw, 12))
        memory->entry_count = draw_below(draw, memory->entry_count + 1);
    for (uint32_t i = 0; i < memory->entry_count; i++) {
        uint32_t left = memory->word_count - place;
        uint32_t size = 1 + draw_below(draw, left < longest ? left : longest);

        memory->entries[i] = draw_entry(draw, memory, place, size);
        place = (place + size) % memory->word_count;
    }
}

/* P29: a few words; where there are long semaphores, at least as many as a release writes. */
static uint32_t draw_semaphore_count(struct draw *draw, struct setting setting)
{
    uint32_t count = 1 + draw_below(draw, 6);

    return setting.level < 5 ? count : LONG_WORDS + count;
}

void compose(struct draw *draw, const struct setup *setup, unsigned ending, uint32_t size,
             struct memory *memory)
{
    struct text text = {.draw = draw,
                        .setting = setup->setting,
                        .sli_mask = setup->sli_mask,
                        .memory = memory,
                        .may_semaphore = ending != END_UNSET,
                        .is_active = true};

    *memory = (struct memory){0};
    draw_table(draw, memory);
    memory->semaphore_count = draw_semaphore_count(draw, setup->setting);
    for (uint32_t i = 0; i < memory->semaphore_count; i++)
        memory->semaphores[i] = draw_value(&text);
    emit_subroutine(&text);
    emit_commands(&text, memory->word_count + size);
    endings[ending](&text);
    if (setup->setting.mode == MODE_IB)
        draw_entries(draw, setup, memory);
}

#include "channel.h"

/* ---- Refusals ---- */

static bool is_ib(const struct channel *channel)
{
    return channel->setup.setting.mode == MODE_IB;
}

/* R25, R34: the refusals of a set-up. ORDER may come after SLI here, as IB mode that isn't refused is above
 * level 3. */
static uint32_t setup_refusal(const struct setup *setup)
{
    uint32_t refusal = model_setting_refusal(setup->setting);

    /* R3: too large a ring. */
    if (refusal == REFUSAL_NONE && setup->setting.mode == MODE_IB && setup->ib_order > ORDER_LIMIT)
        return REFUSAL_ORDER;
    return refusal;
}

/* R5: an entry that isn't whole, or too many. */
static bool is_table_refused(size_t count)
{
    return count % ENTRY_WORDS != 0 || count > TABLE_LIMIT;
}

/* R32, R33: addresses within the width that the mode gives them, three of them multiples of 4. The return
 * address has 32 bits anyway. */
static bool addresses_fit(const struct channel *channel)
{
    uint64_t limit = UINT64_C(1) << (is_ib(channel) ? 40 : 32);

    return channel->get < limit && channel->put < limit && channel->dma_mget < limit &&
           channel->get % 4 == 0 && channel->put % 4 == 0 && channel->return_address % 4 == 0;
}

/* R32, R34: indices within the ring, and no ring in NV04-style. To be asked of a set-up that isn't refused,
 * as the order is at most 12 then. */
static bool indices_fit(const struct channel *channel)
{
    uint32_t order = channel->setup.ib_order;

    if (!is_ib(channel) && order != 0)
        return false;
    return channel->ib_get < UINT32_C(1) << order && channel->ib_put < UINT32_C(1) << order;
}

/* R32, R35: the widths that are the same in both modes. A long address is narrower than its type, and may lie
 * between words. What an error's why is, and whether a word can have it at this setting, is not asked. */
static bool numbers_fit(const struct channel *channel)
{
    for (unsigned i = 0; i < SUBCHANNELS; i++)
        if (channel->engines[i] >= 1 << 5)
            return false;
    return channel->count < 1 << 24 && channel->setup.sli_mask < 1 << 12 && channel->method < 1 << 11 &&
           channel->last_engine < 1 << 5 && channel->subchannel < 1 << 3 &&
           channel->semaphore_address < UINT64_C(1) << 40;
}

/* R13, R32, R33, R34: what STATE asks of a record, and nothing else. */
static bool is_well_formed(const struct channel *channel)
{
    return setup_refusal(&channel->setup) == REFUSAL_NONE && addresses_fit(channel) &&
           indices_fit(channel) && numbers_fit(channel);
}

/* ---- Opening and put ---- */

/* R6: the lowest entry whose handle stands before it, or the count of entries where there is none. */
static size_t first_repeat(const uint32_t *table, size_t entries)
{
    for (size_t later = 1; later < entries; later++)
        for (size_t earlier = 0; earlier < later; earlier++)
            if (table[ENTRY_WORDS * earlier] == table[ENTRY_WORDS * later])
                return later;
    return entries;
}

/* R21, R25: the order of opening. */
static struct opened opening_answer(const struct setup *setup, const uint32_t *table, size_t count)
{
    uint32_t refusal = setup_refusal(setup);
    size_t entries = count / ENTRY_WORDS;
    size_t repeat;

    if (refusal != REFUSAL_NONE)
        return (struct opened){refusal, 0};
    /* R10: the mask is asked for, SLI on or off. */
    if (setup->sli_mask > 4095)
        return (struct opened){REFUSAL_FIELD, 0};
    if (is_table_refused(count))
        return (struct opened){REFUSAL_TABLE, 0};
    /* R6: a handle that isn't the first of its kind. */
    repeat = first_repeat(table, entries);
    if (repeat < entries)
        return (struct opened){REFUSAL_DUPLICATE, (uint32_t)repeat};
    return (struct opened){REFUSAL_NONE, 0};
}

/* R30, S1: opening, refused or not. */
struct opened model_open(struct channel *channel, struct setup setup, const uint32_t *table, size_t count)
{
    struct opened opened = opening_answer(&setup, table, count);

    /* R30: the blank channel is 0 throughout. */
    *channel = (struct channel){0};
    if (opened.refusal != REFUSAL_NONE)
        return opened;
    /* S1: what a fresh channel has that isn't 0. */
    channel->setup = setup;
    channel->sli_active = true;
    /* S1: any order may be given where there is no ring, and none is held. */
    if (!is_ib(channel))
        channel->setup.ib_order = 0;
    return opened;
}

/* R26, R31, S2: setting put, whether or not the channel is stopped. */
uint32_t model_set_put(struct channel *channel, uint32_t put)
{
    if (!is_well_formed(channel))
        return REFUSAL_STATE;
    if (is_ib(channel)) {
        /* R7: a place that the ring doesn't have. */
        if (put >= UINT32_C(1) << channel->setup.ib_order)
            return REFUSAL_PUT;
        channel->ib_put = put;
        return REFUSAL_NONE;
    }
    /* R7: no word's address. */
    if (put % 4 != 0)
        return REFUSAL_PUT;
    channel->put = put;
    return REFUSAL_NONE;
}

/* ---- Answers ---- */

/* S29: a kind without fields. */
static struct answer plain(uint32_t kind)
{
    return (struct answer){.kind = kind};
}

/* S27: what an error of the pusher comes to. */
static struct answer stop_pusher(struct channel *channel, uint32_t error)
{
    channel->pusher_error = error;
    return plain(KIND_ERROR);
}

/* S23, S33: the one error that has a why, which is stored with it. */
static struct answer stop_reserved(struct channel *channel, uint32_t why)
{
    channel->pusher_why = why;
    return stop_pusher(channel, PUSHER_RESERVED_CMD);
}

/* P20, P21: what an error of the puller comes to; whoever raises it has changed nothing else, but for P5. */
static struct answer stop_puller(struct channel *channel, uint32_t error)
{
    channel->puller_error = error;
    return plain(KIND_ERROR);
}

/* A method as the pusher submits it; the method is a byte number. */
struct method {
    uint32_t subchannel;
    uint32_t number;
    uint32_t parameter;
};

/* S29, P22: a method taken or discarded, with the parameter that is handed on. */
static struct answer taken(uint32_t kind, struct method method, uint32_t parameter)
{
    return (struct answer){REFUSAL_NONE, kind, true, method.subchannel, method.number, parameter};
}

/* ---- The puller ---- */

/* P1: the words of an entry. */
enum { OBJECT_HANDLE, OBJECT_ENGINE, OBJECT_ADDRESS, OBJECT_CLASS };

/* P2: the lowest entry with a handle; NULL where there is none. */
static const uint32_t *lookup(const struct lent *lent, uint32_t handle)
{
    for (size_t i = 0; i < lent->table_count; i += ENTRY_WORDS)
        if (lent->table[i + OBJECT_HANDLE] == handle)
            return lent->table + i;
    return NULL;
}

/* P4: 0x00 binds. */
static struct answer pull_bind(struct channel *channel, const struct lent *lent, struct method method)
{
    const uint32_t *object = lookup(lent, method.parameter);
    uint32_t engine;

    if (object == NULL)
        return stop_puller(channel, PULLER_NO_HASH);
    /* P1: the engine is in bits 4-0. */
    engine = object[OBJECT_ENGINE] & 0x1f;
    channel->engines[method.subchannel] = engine;
    /* P5: engine 0 is bound by now, and only then comes the error. */
    if (engine == 0)
        return stop_puller(channel, PULLER_EMPTY_SUBCHANNEL);
    /* P4, P22: the object's address is handed on. */
    channel->last_engine = engine;
    return taken(KIND_BIND, method, object[OBJECT_ADDRESS]);
}

/* P18: 0x100 and up go to the engine. */
static struct answer pull_forward(struct channel *channel, const struct lent *lent, struct method method)
{
    uint32_t engine = channel->engines[method.subchannel];
    uint32_t parameter = method.parameter;

    /* P19: these are looked up, before the engine is asked for. */
    if (method.number >= 0x180 && method.number <= 0x1fc) {
        const uint32_t *object = lookup(lent, parameter);

        if (object == NULL)
            return stop_puller(channel, PULLER_NO_HASH);
        parameter = object[OBJECT_ADDRESS];
    }
    /* P18: nothing is bound here, or the engine is the last from now on. */
    if (engine == 0)
        return stop_puller(channel, PULLER_EMPTY_SUBCHANNEL);
    channel->last_engine = engine;
    return taken(KIND_FORWARD, method, parameter);
}

/* The semaphores of levels 2 and 3 have rules of their own. A retry may come at any level. */
static bool is_before_nv50(const struct channel *channel)
{
    return channel->setup.setting.level < 4;
}

/* P9, P10: 0x60 names the semaphore's object. */
static struct answer pull_dma(struct channel *channel, const struct lent *lent, struct method method)
{
    const uint32_t *object = lookup(lent, method.parameter);

    if (object == NULL)
        return stop_puller(channel, PULLER_NO_HASH);
    /* P1, P9: below level 4, class 2 with both flags; bits above them are not looked at. */
    if (is_before_nv50(channel) && (object[OBJECT_CLASS] & 0x3ffff) != 0x30002)
        return stop_puller(channel, PULLER_SEMAPHORE_1);
    channel->dma_semaphore = object[OBJECT_ADDRESS];
    return taken(KIND_DMA, method, object[OBJECT_ADDRESS]);
}

/* P11, P12: 0x64 gives the semaphore's offset. */
static struct answer pull_offset(struct channel *channel, struct method method)
{
    uint32_t offset = method.parameter;

    if (is_before_nv50(channel)) {
        /* P11: bits 11-2 alone, and the valid flag stays. */
        if ((offset & ~UINT32_C(0xffc)) != 0)
            return stop_puller(channel, PULLER_SEMAPHORE_1);
        channel->semaphore_offset = offset;
        return taken(KIND_OFFSET, method, offset);
    }
    /* P12: the low bits are tried before the high ones. */
    if (offset % 4 != 0)
        return stop_puller(channel, PULLER_SEMAPHORE_1);
    if (offset > 0xffff)
        return stop_puller(channel, PULLER_SEMAPHORE_3);
    channel->semaphore_offset = offset;
    channel->offset_valid = true;
    return taken(KIND_OFFSET, method, offset);
}

/* P14: the semaphore word that the offset names; NULL where it isn't lent. */
static uint32_t *semaphore_word(const struct channel *channel, const struct lent *lent)
{
    uint32_t place = channel->semaphore_offset / 4;

    return place < lent->semaphore_count ? lent->semaphores + place : NULL;
}

/* P14: where that word isn't lent. */
static struct answer stop_past_end(struct channel *channel)
{
    return stop_puller(channel, is_before_nv50(channel) ? PULLER_SEMAPHORE_2 : PULLER_SEMAPHORE_4);
}

/* P10, P13: whether there is an object, or from level 4 on an offset. */
static bool is_semaphore_set(const struct channel *channel)
{
    return is_before_nv50(channel) ? channel->dma_semaphore != 0 : channel->offset_valid;
}

/* P15, P30: an acquire that isn't met at once is kept, to be tried again. */
static struct answer wait_for(struct channel *channel, struct method method, uint32_t mode, uint32_t value)
{
    channel->acquire_active = true;
    channel->acquire_value = value;
    channel->acquire_mode = mode;
    return taken(KIND_WAIT, method, method.parameter);
}

/* P13, P14, P15: 0x68 acquires. Whether the semaphore is set is asked first. */
static struct answer pull_acquire(struct channel *channel, const struct lent *lent, struct method method)
{
    const uint32_t *word = semaphore_word(channel, lent);

    if (!is_semaphore_set(channel))
        return stop_puller(channel, PULLER_SEMAPHORE_2);
    if (word == NULL)
        return stop_past_end(channel);
    /* P15: nothing is stored where the value is found. */
    if (*word == method.parameter)
        return taken(KIND_ACQUIRE, method, method.parameter);
    return wait_for(channel, method, ACQUIRE_OLD, method.parameter);
}

/* P13, P14, P17: 0x6c releases. Whether the semaphore is set is asked first. */
static struct answer pull_release(struct channel *channel, const struct lent *lent, struct method method)
{
    uint32_t *word = semaphore_word(channel, lent);

    if (!is_semaphore_set(channel))
        return stop_puller(channel, PULLER_SEMAPHORE_2);
    if (word == NULL)
        return stop_past_end(channel);
    /* P17: the one word that it writes. */
    *word = method.parameter;
    return taken(KIND_RELEASE, method, method.parameter);
}

/* ---- Long semaphores ---- */

/* P25: 0x10 gives bits 39-32 of the address. */
static struct answer pull_address_high(struct channel *channel, struct method method)
{
    if (method.parameter > 255)
        return stop_puller(channel, PULLER_SEMAPHORE_3);
    channel->semaphore_address &= UINT64_C(0xffffffff);
    channel->semaphore_address |= (uint64_t)method.parameter << 32;
    return taken(KIND_EVENT, method, method.parameter);
}

/* P26: 0x14 gives bits 31-0 of it. */
static struct answer pull_address_low(struct channel *channel, struct method method)
{
    if (method.parameter % 4 != 0)
        return stop_puller(channel, PULLER_SEMAPHORE_1);
    channel->semaphore_address &= UINT64_C(0xff00000000);
    channel->semaphore_address |= method.parameter;
    return taken(KIND_EVENT, method, method.parameter);
}

/* P29, P30, P31: so many semaphore words from the long address on; NULL where not all of them are lent. The
 * place has up to 38 bits, and is not cut to an index. */
static uint32_t *long_words(const struct channel *channel, const struct lent *lent, uint64_t count)
{
    uint64_t place = channel->semaphore_address / 4;

    return place + count <= lent->semaphore_count ? lent->semaphores + place : NULL;
}

/* P16, P30, P31: whether a word lets an acquire pass; a difference counts as negative from 2^31 on. */
static bool passes(uint32_t mode, uint32_t word, uint32_t value)
{
    return mode == ACQUIRE_GREATER ? word - value < UINT32_C(1) << 31 : word == value;
}

/* P29: the trigger's release, which writes four words or none. */
static struct answer pull_long_release(struct channel *channel, const struct lent *lent, struct method method)
{
    uint32_t *words = long_words(channel, lent, LONG_WORDS);

    if (words == NULL)
        return stop_puller(channel, PULLER_SEMAPHORE_4);
    words[0] = channel->semaphore_sequence;
    words[1] = 0;
    words[2] = (uint32_t)lent->clock;
    words[3] = (uint32_t)(lent->clock >> 32);
    return taken(KIND_RELEASE, method, method.parameter);
}

/* P30: the trigger's acquires, which store nothing where they pass. */
static struct answer pull_long_acquire(struct channel *channel, const struct lent *lent, struct method method,
                                       uint32_t mode)
{
    const uint32_t *word = long_words(channel, lent, 1);

    if (word == NULL)
        return stop_puller(channel, PULLER_SEMAPHORE_4);
    if (passes(mode, *word, channel->semaphore_sequence))
        return taken(KIND_ACQUIRE, method, method.parameter);
    return wait_for(channel, method, mode, channel->semaphore_sequence);
}

/* P28: 0x1c triggers, by the whole of its parameter and whatever the memory is. */
static struct answer pull_trigger(struct channel *channel, const struct lent *lent, struct method method)
{
    switch (method.parameter) {
    case TRIGGER_EQUAL:
        return pull_long_acquire(channel, lent, method, ACQUIRE_EQUAL);
    case TRIGGER_RELEASE:
        return pull_long_release(channel, lent, method);
    case TRIGGER_GREATER:
        return pull_long_acquire(channel, lent, method, ACQUIRE_GREATER);
    default:
        return stop_puller(channel, PULLER_SEMAPHORE_2);
    }
}

/* ---- Any method ---- */

/* P3: the puller takes a method that the level has; those of long semaphores come from level 5 alone. */
static struct answer pull(struct channel *channel, const struct lent *lent, struct method method)
{
    if (method.number >= 0x100)
        return pull_forward(channel, lent, method);
    switch (method.number) {
    case 0x00:
        return pull_bind(channel, lent, method);
    case 0x10:
        return pull_address_high(channel, method);
    case 0x14:
        return pull_address_low(channel, method);
    case 0x18:
        /* P27: the long semaphore's value. */
        channel->semaphore_sequence = method.parameter;
        return taken(KIND_EVENT, method, method.parameter);
    case 0x1c:
        return pull_trigger(channel, lent, method);
    case 0x50:
        /* P6: the reference counter. */
        channel->ref = method.parameter;
        return taken(KIND_REF, method, method.parameter);
    case 0x60:
        return pull_dma(channel, lent, method);
    case 0x64:
        return pull_offset(channel, method);
    case 0x68:
        return pull_acquire(channel, lent, method);
    case 0x6c:
        return pull_release(channel, lent, method);
    default:
        /* P7, P8, P24: an event for 0x80, 0x20 and 0x24; no level has others. */
        return taken(KIND_EVENT, method, method.parameter);
    }
}

/* S5, P16, P21, P31: a retry asks for the word of its own mode and for its value alone. It has no fields, and
 * at an error the acquire is still active. */
static struct answer retry(struct channel *channel, const struct lent *lent)
{
    bool is_long = channel->acquire_mode != ACQUIRE_OLD;
    const uint32_t *word = is_long ? long_words(channel, lent, 1) : semaphore_word(channel, lent);

    /* P31: a long one past the end fails alike at every level. */
    if (word == NULL)
        return is_long ? stop_puller(channel, PULLER_SEMAPHORE_4) : stop_past_end(channel);
    if (!passes(channel->acquire_mode, *word, channel->acquire_value))
        return plain(KIND_WAIT);
    channel->acquire_active = false;
    return plain(KIND_ACQUIRE);
}

/* ---- The pusher ---- */

/* S11, S12: the advance, with dma_mget in its train where NOT_MAIN is clear. A word that can be read lies
 * below 2^22, so that no width ends there. */
static void advance(struct channel *channel)
{
    channel->get += 4;
    if (is_ib(channel) && !channel->not_main) {
        channel->dma_mget = channel->get;
        channel->dma_mget_valid = true;
    }
}

/* S15: the count of a long form. */
static struct answer take_count(struct channel *channel, uint32_t word)
{
    channel->count = word & 0x00ffffff;
    channel->count_awaited = false;
    return plain(KIND_COUNT);
}

/* S24, S25: a parameter. */
static struct answer take_parameter(struct channel *channel, const struct lent *lent, uint32_t word)
{
    const struct setting *setting = &channel->setup.setting;
    struct method method = {channel->subchannel, 4 * channel->method, word};

    /* S24, S28: tried before SLI; count and method stay. */
    if (!model_present(setting->level, channel->method))
        return stop_pusher(channel, PUSHER_NON_CACHE);
    /* S25, P21: whatever becomes of it from here on. */
    channel->count--;
    if (channel->increasing)
        channel->method = (channel->method + 1) % 2048;
    /* S24, P22: discarded with the word as it was read, or taken at once. */
    if (setting->sli && !channel->sli_active)
        return taken(KIND_DISCARD, method, word);
    return pull(channel, lent, method);
}

/* S16, S18: the command under way becomes this one; the method is given by its byte number. */
static struct answer take_methods(struct channel *channel, uint32_t count, uint32_t subchannel,
                                  uint32_t method, bool increasing)
{
    channel->count = count;
    channel->subchannel = subchannel;
    channel->method = method / 4;
    channel->increasing = increasing;
    return plain(KIND_COMMAND);
}

/* S21, S28: a call, which is an error inside a subroutine. */
static struct answer take_call(struct channel *channel, uint32_t target)
{
    if (channel->subroutine)
        return stop_pusher(channel, PUSHER_CALL);
    channel->return_address = (uint32_t)channel->get;
    channel->subroutine = true;
    channel->get = target;
    return plain(KIND_COMMAND);
}

/* S22, S28: a return, which is an error outside of one. */
static struct answer take_return(struct channel *channel)
{
    if (!channel->subroutine)
        return stop_pusher(channel, PUSHER_RETURN);
    channel->get = channel->return_address;
    channel->subroutine = false;
    return plain(KIND_COMMAND);
}

/* S13, S16, S17, S18, S19, S20, S21, S22, S23: a command, each form in its own way. */
static struct answer take_command(struct channel *channel, uint32_t word)
{
    struct reading command = model_read(channel->setup.setting, word, 0);
    const uint32_t *value = command.value;

    switch (command.number) {
    case READING_INCREASING:
    case READING_NON_INCREASING:
        /* S17: the command under way stays what it was. */
        if (value[0] == 0)
            return plain(KIND_COMMAND);
        return take_methods(channel, value[0], value[1], value[2], command.number == READING_INCREASING);
    case READING_SLI:
        /* S19: set or clear, by the bits that both masks have. */
        channel->sli_active = (value[0] & channel->setup.sli_mask) != 0;
        return plain(KIND_COMMAND);
    case READING_LONG:
        /* S18: the count is 0 here anyway, since this word was read as a command. */
        channel->count_awaited = true;
        return take_methods(channel, 0, value[0], value[1], false);
    case READING_OLD_JUMP:
    case READING_JUMP:
        /* S20: on at the target. */
        channel->get = value[0];
        return plain(KIND_COMMAND);
    case READING_CALL:
        return take_call(channel, value[0]);
    case READING_RETURN:
        return take_return(channel);
    default:
        /* S23, S28: the advance is all that is left of it. A channel that isn't refused has a setting that
         * isn't either, so that it is a reserved word. */
        return stop_reserved(channel, command.why);
    }
}

/* S9, S10: whether the read address has no word to give. In IB mode only the lent words say so: the place,
 * of up to 38 bits, is not cut to an index. */
static bool is_protected(const struct channel *channel, const struct lent *lent)
{
    if (!is_ib(channel) && channel->get > channel->setup.dma_limit)
        return true;
    return channel->get / 4 >= lent->word_count;
}

/* S6, S9: the word at the read address. */
static struct answer read_word(struct channel *channel, const struct lent *lent)
{
    uint32_t word;

    /* S10, S28: where there is none, nothing moves. */
    if (is_protected(channel, lent))
        return stop_pusher(channel, PUSHER_PROTECTION);
    word = lent->words[channel->get / 4];
    advance(channel);
    /* S14: what the word is, only the turn says. */
    if (channel->count_awaited)
        return take_count(channel, word);
    if (channel->count != 0)
        return take_parameter(channel, lent, word);
    return take_command(channel, word);
}

/* S7, E1: an entry, by its bits 39-2, 41 and 63-42. */
static struct answer read_entry(struct channel *channel, const struct lent *lent)
{
    uint64_t entry, address, size;

    /* E2, S28: an index past the lent entries. */
    if (channel->ib_get >= lent->entry_count)
        return stop_pusher(channel, PUSHER_PROTECTION);
    entry = lent->entries[channel->ib_get];
    address = entry & UINT64_C(0xfffffffffc);
    size = entry >> 42;
    /* E3, E4, S28: an entry without words is passed all the same. */
    channel->ib_get = (channel->ib_get + 1) & ((UINT32_C(1) << channel->setup.ib_order) - 1);
    if (size == 0)
        return stop_pusher(channel, PUSHER_IB);
    channel->get = address;
    /* E5: 40 bits hold put. */
    channel->put = (address + 4 * size) & UINT64_C(0xffffffffff);
    channel->not_main = (entry >> 41 & 1) != 0;
    /* E6: the valid flag waits for an advance. */
    if (!channel->not_main)
        channel->dma_mget = address;
    /* E7: no word was read yet. */
    return plain(KIND_ENTRY);
}

/* ---- The step ---- */

/* R21, R27: the order of a step. */
static uint32_t step_refusal(const struct channel *channel, const struct lent *lent)
{
    if (!is_well_formed(channel))
        return REFUSAL_STATE;
    /* R8: too many words of either. */
    if (lent->word_count > SIZE_LIMIT || lent->semaphore_count > SIZE_LIMIT)
        return REFUSAL_SIZE;
    if (is_table_refused(lent->table_count))
        return REFUSAL_TABLE;
    return REFUSAL_NONE;
}

/* R31, S3: one step. */
struct answer model_step(struct channel *channel, const struct lent *lent)
{
    uint32_t refusal = step_refusal(channel, lent);

    if (refusal != REFUSAL_NONE)
        return (struct answer){.refusal = refusal};
    /* S4, S5, S6, S7, S8: the first that applies. */
    if (channel->pusher_error != 0 || channel->puller_error != 0)
        return plain(KIND_STOPPED);
    if (channel->acquire_active)
        return retry(channel, lent);
    if (channel->get != channel->put)
        return read_word(channel, lent);
    if (is_ib(channel) && channel->ib_get != channel->ib_put)
        return read_entry(channel, lent);
    return plain(KIND_IDLE);
}

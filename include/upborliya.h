/* The gatekeeper for command words of NV04 to NV84 cards, for a host program in C: upborliya_judge judges a
 * submission, upborliya_repair puts its map right, and upborliya_read says what one word means.
 *
 * Link with the archive that `make -C host archive` writes, or where it is installed with what
 * `pkg-config --libs upborliya` says. */
#ifndef UPBORLIYA_H
#define UPBORLIYA_H

#include <stddef.h>
#include <stdint.h>

#ifdef __cplusplus
extern "C" {
#endif

/* The answer to a submission, in one number. Of upborliya_judge:
 *
 *   bits  7-0   reason: why the words are not passed on, one of UPBORLIYA_REASON_.., or 0
 *   bits 15-8   refusal: why there is no judgement, one of UPBORLIYA_REFUSAL_.., or 0
 *   bits 23-16  of the reason RESERVED why the word is no command, one of UPBORLIYA_WHY_..; else 0
 *   bits 39-24  how many methods the list permits, 0 on a refusal
 *   bits 63-40  the place of the reason, counted in words; 0 where there is none
 *
 * The words are accepted exactly if reason and refusal are both 0. Of upborliya_repair, which gives no reason:
 *
 *   bits 15-8   refusal: why nothing is repaired, one of UPBORLIYA_REFUSAL_.., or 0
 *   bits 39-24  how many map bytes changed, each with an entry of the list; 0 on a refusal
 *
 * and all else is 0. */
typedef uint64_t upborliya_answer;

/* The reasons: what speaks against the words, at the place that the answer gives. */
enum {
    UPBORLIYA_REASON_NONE = 0,
    UPBORLIYA_REASON_MAP_BYTE = 1,         /* a map byte is over 3 */
    UPBORLIYA_REASON_NO_START = 2,         /* place 0 is not marked for main */
    UPBORLIYA_REASON_RESERVED = 3,         /* a marked word is no command at this level and SLI setting */
    UPBORLIYA_REASON_CALL_INSIDE = 4,      /* a call inside a subroutine */
    UPBORLIYA_REASON_RETURN_OUTSIDE = 5,   /* a return in main */
    UPBORLIYA_REASON_SHORT = 6,            /* parameters run past the last word */
    UPBORLIYA_REASON_NON_CACHE = 7,        /* a method below 0x100 that the level lacks */
    UPBORLIYA_REASON_NOT_PERMITTED = 8,    /* a method that the list does not permit */
    UPBORLIYA_REASON_MARKED_PARAMETER = 9, /* a parameter is marked as a command start */
    UPBORLIYA_REASON_TARGET_PAST = 10,     /* a jump or call past the end of the words */
    UPBORLIYA_REASON_NOT_MARKED = 11,      /* the command goes on at a place not marked for its state */
    UPBORLIYA_REASON_END_INSIDE = 12,      /* the words end inside a subroutine */
    UPBORLIYA_REASON_WRAPS = 13            /* an increasing run goes past method 0x1ffc, on to method 0 */
};

/* The refusals; the numbers between them are not given here. Each function has its own, tried in this order:
 *
 *   upborliya_judge   LEVEL, SLI, SIZE, LENGTH
 *   upborliya_repair  LEVEL, SLI, SIZE, LENGTH, ROOM
 *   upborliya_read    LEVEL, MODE, SLI */
enum {
    UPBORLIYA_REFUSAL_NONE = 0,
    UPBORLIYA_REFUSAL_LEVEL = 1,  /* the level is above 5 */
    UPBORLIYA_REFUSAL_MODE = 2,   /* the mode is above 1, or it is IB below level 4 */
    UPBORLIYA_REFUSAL_SLI = 4,    /* SLI is on below level 3 */
    UPBORLIYA_REFUSAL_SIZE = 8,   /* there are over 1,048,576 words, for the repair over 8,192 */
    UPBORLIYA_REFUSAL_LENGTH = 9, /* part of a word, not one map byte a word, or a list of another size */
    UPBORLIYA_REFUSAL_ROOM = 11   /* a room has fewer entries than one a word (list) or two a word (work) */
};

/* Why a word is no command at a level, a mode and an SLI setting: the first of these that applies. */
enum {
    UPBORLIYA_WHY_NONE = 0,
    UPBORLIYA_WHY_FORM = 1,  /* no command looks like that, on any card */
    UPBORLIYA_WHY_LEVEL = 2, /* it is a command from a higher level on */
    UPBORLIYA_WHY_MODE = 3,  /* it is a command in the other mode */
    UPBORLIYA_WHY_SLI = 4    /* it is an SLI conditional, and SLI is off */
};

static inline unsigned upborliya_reason(upborliya_answer answer)
{
    return (unsigned)(answer & 0xff);
}

static inline unsigned upborliya_refusal(upborliya_answer answer)
{
    return (unsigned)(answer >> 8 & 0xff);
}

static inline unsigned upborliya_reserved_why(upborliya_answer answer)
{
    return (unsigned)(answer >> 16 & 0xff);
}

static inline unsigned upborliya_count(upborliya_answer answer)
{
    return (unsigned)(answer >> 24 & 0xffff);
}

static inline unsigned upborliya_place(upborliya_answer answer)
{
    return (unsigned)(answer >> 40);
}

/* Judges words, as little-endian bytes, with the map of their command starts, a byte a word, and the list of
 * permitted methods, 2,048 bytes. sli is 0 for off, anything else for on. Any numbers and any lengths, in bytes,
 * get an answer, lengths that no memory has too. Nothing is written, and nothing is read outside the lengths
 * given; a pointer may be null where its length is 0.
 *
 * What accepted means: on a fresh NV04-style channel of this level and SLI setting that reads these words, the
 * first at address 0, unchanged for as long as it reads them, with put set once, at their end, and a limit not
 * below the last word's address, no step ever raises a pusher error, every method that is submitted is
 * permitted, no word is read both as a command and as a parameter, and whenever the read address equals put, no
 * command and no subroutine is open. That the channel is so is the layer's to see to.
 *
 * What accepted does not mean, and is the layer's to see to as well:
 *
 *   - The words may loop for ever: bound the steps, or the time.
 *   - The puller may stop the channel at an error of its own, or wait on an acquire for ever.
 *   - A permit bit for method 0 of a subchannel lets the author bind there any object of the channel's table,
 *     whatever was bound before. What the table holds, and which method 0 is permitted, decide whose engine is
 *     reached.
 *   - No parameter of a permitted method is judged.
 *   - One fresh channel and one put are judged, not a channel that is used again.
 *   - IB mode, endianness, timing and engines are not judged.
 *   - The card has to read the very bytes that were judged: copy the words out of the author's reach, judge the
 *     copy and hand on the copy. Lent memory must not overlap: a semaphore memory that lay over the words would
 *     let a release rewrite them.
 *   - All of it is about the public description of the cards, not about a card. */
upborliya_answer upborliya_judge(uint32_t level, uint32_t sli, const uint8_t *words, size_t words_length,
                                 const uint8_t *map, size_t map_length, const uint8_t *permit,
                                 size_t permit_length);

/* A change of the repair's list, in one number: what a map byte was, and what it became.
 *
 *   bits 31-0   the place, counted in words
 *   bits 39-32  the byte before, which may be any
 *   bits 47-40  the byte now, 0 to 3
 *   bits 63-48  0, kept for later */
static inline unsigned upborliya_change_place(uint64_t change)
{
    return (unsigned)(change & 0xffffffff);
}

static inline unsigned upborliya_change_old(uint64_t change)
{
    return (unsigned)(change >> 32 & 0xff);
}

static inline unsigned upborliya_change_new(uint64_t change)
{
    return (unsigned)(change >> 40 & 0xff);
}

/* Makes the map the exact one: it marks the places that the commands come to from place 0 on, each in main,
 * inside a subroutine or both, and no other. That depends on words, list, level and SLI setting alone, so that
 * any map, also one of random bytes, becomes the same.
 *
 * The repaired map says where the fault lies. If upborliya_judge accepts it, only the map was wrong, if
 * anything was. If upborliya_judge rejects it, no map is accepted with these words and this list at this level
 * and SLI setting. It is not passed on because it was repaired: judge it as any other.
 *
 * A map that is accepted already has all marks of the exact one, and may have further ones, which the repair
 * takes away. A map that is repaired again stays as it is.
 *
 * Submission and sli are as for upborliya_judge, but for the map, which is written, and at most 8,192 words.
 * Two rooms are lent as well, whose lengths count entries and not bytes, and which are aligned for uint64_t:
 *
 *   list  at least one entry a word. From its front on it gets a change for each byte that changed, places
 *         rising, as many as the answer's count says; entries behind these stay as they were.
 *   work  at least two entries a word, whatever they hold. So many are 0 afterwards, further ones stay.
 *
 * Words, map, permit list and the two rooms must each lie apart: none may overlap another. Any numbers and any
 * lengths get an answer; a pointer may be null where its length is 0. With a refusal nothing is written.
 * Nothing else than map, list and work is written in any case, and nothing outside the lengths is touched. */
upborliya_answer upborliya_repair(uint32_t level, uint32_t sli, const uint8_t *words, size_t words_length,
                                  uint8_t *map, size_t map_length, const uint8_t *permit,
                                  size_t permit_length, uint64_t *list, size_t list_length, uint64_t *work,
                                  size_t work_length);

/* What one word means, read as the first of a command, in one number:
 *
 *   bits  7-0   form: one of UPBORLIYA_FORM_..
 *   bits 15-8   refusal: why it is not read, one of UPBORLIYA_REFUSAL_.., or 0
 *   bits 23-16  of the form RESERVED why it is no command, one of UPBORLIYA_WHY_..; else 0
 *
 * and then by its form, of INCREASING, NON_INCREASING and LONG
 *
 *   bits 36-24  method, a multiple of 4, to which the first parameter goes
 *   bits 39-37  subchannel
 *   bits 63-40  count: how many parameters follow
 *
 * of SLI
 *
 *   bits 63-32  mask
 *
 * of OLD_JUMP, JUMP and CALL
 *
 *   bits 63-32  target, a byte address and a multiple of 4
 *
 * and all else is 0. */
typedef uint64_t upborliya_reading;

/* The forms. */
enum {
    UPBORLIYA_FORM_INCREASING = 1,     /* parameters for one method after another */
    UPBORLIYA_FORM_NON_INCREASING = 2, /* parameters for one method */
    UPBORLIYA_FORM_SLI = 3,            /* SLI conditional: which cards heed what follows */
    UPBORLIYA_FORM_RETURN = 4,
    UPBORLIYA_FORM_LONG = 5, /* as non-increasing, with the count in the next word; in IB mode alone */
    UPBORLIYA_FORM_OLD_JUMP = 6,
    UPBORLIYA_FORM_JUMP = 7,
    UPBORLIYA_FORM_CALL = 8,
    UPBORLIYA_FORM_RESERVED = 9, /* no command at this level, mode and SLI setting: the why says what is wrong */
    UPBORLIYA_FORM_REFUSED = 10  /* there is no such level, mode or SLI setting: the refusal says which */
};

/* The modes. Only NV04-style is judged and repaired. */
enum { UPBORLIYA_MODE_NV04_STYLE = 0, UPBORLIYA_MODE_IB = 1 };

static inline unsigned upborliya_form(upborliya_reading reading)
{
    return (unsigned)(reading & 0xff);
}

static inline unsigned upborliya_reading_refusal(upborliya_reading reading)
{
    return (unsigned)(reading >> 8 & 0xff);
}

static inline unsigned upborliya_reading_why(upborliya_reading reading)
{
    return (unsigned)(reading >> 16 & 0xff);
}

/* These three of the forms INCREASING, NON_INCREASING and LONG. */
static inline unsigned upborliya_subchannel(upborliya_reading reading)
{
    return (unsigned)(reading >> 37 & 0x7);
}

static inline unsigned upborliya_method(upborliya_reading reading)
{
    return (unsigned)(reading >> 24 & 0x1fff);
}

static inline unsigned upborliya_method_count(upborliya_reading reading)
{
    return (unsigned)(reading >> 40);
}

/* Of the forms OLD_JUMP, JUMP and CALL. */
static inline unsigned upborliya_target(upborliya_reading reading)
{
    return (unsigned)(reading >> 32);
}

/* Of the form SLI. */
static inline unsigned upborliya_mask(upborliya_reading reading)
{
    return (unsigned)(reading >> 32);
}

/* Reads a word for a level, a mode and an SLI setting, 0 for off, anything else for on. Any numbers get an
 * answer. next is the word behind it, of which the form LONG alone takes its count; 0 will do for any other.
 * Whether a word of a stream is read as the first of a command or as a parameter depends on those before it;
 * the map says which is meant, and upborliya_judge whether that is so. */
upborliya_reading upborliya_read(uint32_t level, uint32_t mode, uint32_t sli, uint32_t word, uint32_t next);

#ifdef __cplusplus
}
#endif

#endif

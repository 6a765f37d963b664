/* Submissions to ask the gatekeeper about, for its self-test, its vectors and the comparison with the
 * archive: sound ones, wild ones, and what spoils them. */
#ifndef MODEL_GATE_DRAW_H
#define MODEL_GATE_DRAW_H

#include "draw.h"
#include "path.h"

/* ---- Submissions (gate_given.c) ---- */

/* Room for somewhat more than may be lent. */
enum { WORDS_ROOM = SIZE_LIMIT + 4, PERMIT_ROOM = 4096 };

/* No place. */
enum { NOWHERE = SIZE_LIMIT + 4 };

/* A submission in room of its own. The bytes of the permit list are the fill byte but for some; the room
 * behind them has it too. */
struct given {
    uint32_t level;
    uint32_t sli;
    uint8_t words[4 * WORDS_ROOM];
    size_t words_length;
    uint8_t map[WORDS_ROOM];
    size_t map_length;
    uint8_t permit_fill;
    uint8_t permit[PERMIT_ROOM];
    size_t permit_length;
};

/* What the gatekeeper is lent of it. */
struct submission submission_of(const struct given *given);

/* How many whole words there are; as many are given, with a map byte each. */
uint32_t word_count(const struct given *given);
void set_count(struct given *given, uint32_t count);

uint32_t word_of(const struct given *given, uint32_t place);
void set_word(struct given *given, uint32_t place, uint32_t word);

/* The word at a place as a command, whether or not it is marked. */
struct reading command_of(const struct given *given, uint32_t place);
bool is_jump(const struct given *given, uint32_t place);
bool is_call(const struct given *given, uint32_t place);
bool is_run(const struct given *given, uint32_t place);

/* Another target for a jump or a call. */
void set_target(struct given *given, uint32_t place, uint32_t target);

/* A permit list of 2,048 fill bytes; whether it permits a method, given by its number; and all methods of a
 * run permitted. */
void fill_permit(struct given *given, uint8_t fill);
void set_permit(struct given *given, uint32_t subchannel, uint32_t method, bool is_permitted);
void permit_run(struct given *given, uint32_t place);

/* A place that is marked for all these states, looked for from one on, though not for long; NOWHERE where
 * none is found. */
uint32_t find_mark(const struct given *given, uint32_t from, uint8_t mark);

/* The map becomes that of exactly the reached pairs. Nothing but the map may be refused. */
struct path give_exact_map(struct given *given);

/* Every entry of a room before it is lent. */
#define UNTOUCHED UINT64_C(0xfedcba9876543210)
void fill_room(uint64_t *room, size_t length);

/* ---- Sound and wild ones (gate_draw.c) ---- */

/* SLI as a number, enabled. */
uint32_t draw_enabled(struct draw *draw);

/* So many words that are accepted: every start is marked, reached or not. Half of the time nothing is
 * permitted that no command asks for. */
void draw_sound(struct draw *draw, struct given *given, uint32_t count);

/* So many words that may be anything, though most are commands; so may the map and the permit list. */
void draw_wild(struct draw *draw, struct given *given, uint32_t count);

/* A word of that kind, for a submission of so many. */
uint32_t draw_wild_word(struct draw *draw, uint32_t count);

/* So many words that mostly call and jump, so that much is reached, in both states and by several ways; most
 * methods are permitted. The map is of any bytes. */
void draw_tangle(struct draw *draw, struct given *given, uint32_t count);

/* An increasing run of that kind, of few parameters; with bit 30 set it is a non-increasing one. */
uint32_t draw_tangle_run(struct draw *draw);

/* A map of any bytes, of which some are marks. */
void draw_map(struct draw *draw, struct given *given);

/* ---- What spoils them (gate_damage.c) ---- */

/* The ways to damage a submission, most of them in view of one reason. Without words it stays as it is. */
unsigned damage_count(void);
void damage(struct draw *draw, struct given *given, unsigned way);

/* Makes a submission be refused, in one way or in several at once, but not for its size. */
void refuse(struct draw *draw, struct given *given);

#endif

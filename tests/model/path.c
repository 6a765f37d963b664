#include "path.h"

#include <string.h>

/* The pairs that were reached, and those of them whose next pairs are still to be reached. */
struct walk {
    uint8_t *map;
    struct pair *waiting;
    size_t waiting_count;
};

/* H5: a pair that is reached gets its mark. Each pair waits once at most, as it is marked before. */
static void reach(struct walk *walk, struct pair pair)
{
    if ((walk->map[pair.place] & pair.state) != 0)
        return;
    walk->map[pair.place] |= (uint8_t)pair.state;
    walk->waiting[walk->waiting_count++] = pair;
}

/* H2: what is reached from a pair, which is nothing where it has one of the path rule's reasons. */
static void reach_next(struct walk *walk, const struct code *code, struct pair pair)
{
    struct follow follow;

    if (model_pair_reason(code, NULL, pair, &follow) != REASON_NONE)
        return;
    for (uint32_t i = 0; i < follow.next_count; i++)
        if (follow.next[i].place != code->count)
            reach(walk, follow.next[i]);
}

/* H3, H4: whether a place is bad, by a reason or by what lies among its parameters. `start` is the nearest
 * reached place after it, or the end. */
static bool is_bad(const struct code *code, const uint8_t *map, uint32_t place, uint32_t start)
{
    for (uint32_t state = STATE_MAIN; state <= STATE_SUBROUTINE; state++) {
        struct follow follow;

        if ((map[place] & state) == 0)
            continue;
        if (model_pair_reason(code, NULL, (struct pair){place, state}, &follow) != REASON_NONE)
            return true;
        if (start - place <= follow.parameters)
            return true;
    }
    return false;
}

/* H1, H2, H3, H4, H5: the path rule. */
struct path model_path(const struct submission *submission, uint8_t *map, struct pair *room)
{
    struct walk walk = {map, room, 0};
    struct path path = {false, 0};
    struct code code = model_code(submission);
    uint32_t start;

    /* H1: where every path begins. */
    if (code.count != 0) {
        memset(map, 0, code.count);
        reach(&walk, (struct pair){0, STATE_MAIN});
    }
    while (walk.waiting_count != 0)
        reach_next(&walk, &code, room[--walk.waiting_count]);
    /* From the last place back, so that the lowest bad one is found last. */
    start = code.count;
    for (uint32_t place = code.count; place-- != 0;) {
        if (map[place] == 0)
            continue;
        if (is_bad(&code, map, place, start))
            path = (struct path){true, place};
        start = place;
    }
    return path;
}

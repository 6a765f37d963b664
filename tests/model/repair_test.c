/* The self-test of the models of the search, of the repair and of readings for C: cases worked out by hand,
 * a second reading of each that goes another way than the model, and what must hold of any submission. */
#include <inttypes.h>
#include <stdio.h>
#include <stdlib.h>
#include <string.h>

#include "gate_draw.h"
#include "pattern.h"
#include "repair.h"

static uint64_t checks;

/* The submission of a case, and the mode that the search is asked about. */
static struct given given;
static uint32_t mode;

/* Counts a check; the first that fails is named, with the words at issue, and ends the run. */
static void check(bool good, const char *sentence)
{
    checks++;
    if (good)
        return;
    fprintf(stderr, "repair model: failed: %s (level %" PRIu32 ", mode %" PRIu32 ", SLI %" PRIu32 "; ",
            sentence, given.level, mode, given.sli);
    fprintf(stderr, "lengths %zu, %zu, %zu; words", given.words_length, given.map_length,
            given.permit_length);
    for (uint32_t place = 0; place < word_count(&given) && place < 40; place++)
        fprintf(stderr, " 0x%" PRIx32, word_of(&given, place));
    fprintf(stderr, ")\n");
    exit(1);
}

/* ---- What is lent ---- */

enum { LIST_ROOM = REPAIR_LIMIT + 40, WORK_ROOM = 2 * LIST_ROOM, SEARCH_ROOM = 2 * SIZE_LIMIT + 40 };

/* So many entries before a room are looked at too. */
enum { BEFORE = 4 };

/* Copies that end with their room, so that the sanitizers see what is read or written behind them. */
static uint8_t words_room[4 * WORDS_ROOM];
static uint8_t map_room[WORDS_ROOM];
static uint8_t permit_room[PERMIT_ROOM];

static uint64_t list_room[BEFORE + LIST_ROOM];
static uint64_t work_room[BEFORE + WORK_ROOM];
static uint64_t search_room[BEFORE + SEARCH_ROOM];

/* Bytes at the end of a room of `size`. */
static uint8_t *lend_bytes(uint8_t *room, size_t size, const uint8_t *bytes, size_t length)
{
    return length == 0 ? NULL : memcpy(room + (size - length), bytes, length);
}

/* So many entries at the end of a room of `size`. */
static uint64_t *lend_room(uint64_t *room, size_t size, size_t length)
{
    fill_room(room + (size - length - BEFORE), length + BEFORE);
    return room + (size - length);
}

/* Whether entries still hold what they held before. */
static bool is_untouched(const uint64_t *entries, size_t length)
{
    for (size_t i = 0; i < length; i++)
        if (entries[i] != UNTOUCHED)
            return false;
    return true;
}

/* ---- One repair ---- */

/* What the last repair was lent, and answered. */
static struct repair repair;
static struct outcome repaired;

/* Whether what may only be read was left alone. */
static bool is_read_only(const uint8_t *words, const uint8_t *permit)
{
    return (given.words_length == 0 || memcmp(words, given.words, given.words_length) == 0) &&
           (given.permit_length == 0 || memcmp(permit, given.permit, given.permit_length) == 0);
}

static bool is_map_kept(void)
{
    return given.map_length == 0 || memcmp(repair.map, given.map, given.map_length) == 0;
}

/* H13: the list, by a scan of what was and is in the map. */
static bool is_list_right(void)
{
    uint32_t count = 0;

    for (size_t place = 0; place < given.map_length; place++) {
        uint64_t bytes = given.map[place] + UINT64_C(256) * repair.map[place];

        if (bytes % 256 == bytes / 256)
            continue;
        if (count == repaired.count || repair.list[count++] != place + (bytes << 32))
            return false;
    }
    return count == repaired.count && is_untouched(repair.list + count, repair.list_length - count);
}

/* H14: the work room. */
static bool is_work_right(void)
{
    size_t used = given.words_length / 4 * 2;
    uint64_t marks = 0;

    for (size_t i = 0; i < used; i++)
        marks |= repair.work[i];
    return marks == 0 && is_untouched(repair.work + used, repair.work_length - used);
}

/* R31, H13, H14: repairs a copy of the submission, in rooms of so many entries: a refusal writes nothing,
 * and nothing but map, list and work room is ever written. The map must have no byte but one a word. */
static void do_repair(size_t list_length, size_t work_length)
{
    repair = (struct repair){given.level,
                             given.sli,
                             lend_bytes(words_room, sizeof words_room, given.words, given.words_length),
                             given.words_length,
                             lend_bytes(map_room, sizeof map_room, given.map, given.map_length),
                             given.map_length,
                             lend_bytes(permit_room, sizeof permit_room, given.permit, given.permit_length),
                             given.permit_length,
                             lend_room(list_room, BEFORE + LIST_ROOM, list_length),
                             list_length,
                             lend_room(work_room, BEFORE + WORK_ROOM, work_length),
                             work_length};
    repaired = model_repair(&repair);
    check(is_read_only(repair.words, repair.permit), "words and permit list are only read");
    check(is_untouched(repair.list - BEFORE, BEFORE) && is_untouched(repair.work - BEFORE, BEFORE),
          "nothing before a room is written");
    if (repaired.refusal == REFUSAL_NONE) {
        check(is_list_right(), "the list is what changed");
        check(is_work_right(), "the work room is 0, as far as it is used");
        return;
    }
    check(repaired.count == 0 && is_map_kept(), "a refusal writes no map");
    check(is_untouched(repair.list, list_length), "a refusal writes no list");
    check(is_untouched(repair.work, work_length), "a refusal writes no work room");
}

/* The same in the rooms that are asked for. */
static void do_fitting_repair(void)
{
    do_repair(word_count(&given), 2 * word_count(&given));
}

/* ---- One search ---- */

/* What the last search was lent, and answered. */
static struct search search;
static struct outcome searched;

/* R31, H11: searches a copy of the words, in a room of so many entries, of which none but two a word are
 * written, and with a refusal none. */
static void do_search(size_t room_length)
{
    size_t used = given.words_length / 4 * 2;

    search = (struct search){{given.level, mode, given.sli != 0},
                             lend_bytes(words_room, sizeof words_room, given.words, given.words_length),
                             given.words_length,
                             lend_bytes(permit_room, sizeof permit_room, given.permit, given.permit_length),
                             given.permit_length,
                             lend_room(search_room, BEFORE + SEARCH_ROOM, room_length),
                             room_length};
    searched = model_search(&search);
    if (searched.refusal != REFUSAL_NONE)
        used = 0;
    check(searched.refusal == REFUSAL_NONE || searched.count == 0, "a refusal finds nothing");
    check(is_read_only(search.words, search.permit), "words and permit list are only read");
    check(is_untouched(search.room - BEFORE, BEFORE), "nothing before the room is written");
    check(is_untouched(search.room + used, room_length - used), "further entries stay");
}

/* H11: the halves of an entry. */
static uint32_t lower(size_t i)
{
    return (uint32_t)(search.room[i] % (UINT64_C(1) << 32));
}

static uint32_t upper(size_t i)
{
    return (uint32_t)(search.room[i] / (UINT64_C(1) << 32));
}

/* ---- The search by hand ---- */

enum { ROW_WORDS = 6 };

/* G13, H2, H9, H11: words, all methods permitted, and the pairs that are found, in order, and from where. */
static const struct search_row {
    const char *sentence;
    uint32_t level;
    uint32_t mode;
    uint32_t sli;
    uint32_t count;
    uint32_t words[ROW_WORDS];
    uint32_t found;
    uint32_t order[2 * ROW_WORDS];
    uint32_t from[2 * ROW_WORDS];
} search_rows[] = {
    {"no words", 3, 0, 0, 0, {0}, 0, {0}, {0}},
    {"one word", 0, 0, 0, 1, {0}, 1, {0}, {0}},
    {"the rule book's case", 3, 0, 0, 4, {0x40050, 7, 0xe, 0x20000}, 4, {0, 4, 7, 6}, {0, 0, 4, 4}},
    {"behind the parameters", 0, 0, 0, 4, {0x80100, 3, 3, 0}, 2, {0, 6}, {0, 0}},
    {"non-increasing ones too", 1, 0, 0, 3, {0x40040100, 3, 0}, 2, {0, 4}, {0, 0}},
    {"parameters up to the end", 0, 0, 0, 3, {0x80100, 0, 0}, 1, {0}, {0}},
    {"a jump on, and back", 0, 0, 0, 3, {0x20000008, 3, 0x20000000}, 2, {0, 4}, {0, 0}},
    {"a jump onto itself", 2, 0, 0, 2, {0, 0x5}, 2, {0, 2}, {0, 0}},
    {"a jump to the end", 2, 0, 0, 2, {0x9, 0}, 1, {0}, {0}},
    {"a subroutine called twice", 2, 0, 0, 4, {0xe, 0xe, 0x11, 0x20000}, 4, {0, 7, 2, 4}, {0, 0, 0, 2}},
    {"a chain", 2, 0, 0, 4, {0x6, 0xa, 0xe, 0x20000}, 7, {0, 3, 2, 5, 4, 7, 6}, {0, 0, 0, 2, 2, 4, 4}},
    {"a call of the word behind", 2, 0, 0, 2, {0x6, 0x5}, 3, {0, 3, 2}, {0, 0, 0}},
    {"in turn", 2, 0, 0, 6, {0x12, 0x16, 0x19, 0, 0, 2 << 16}, 5, {0, 9, 2, 11, 4}, {0, 0, 0, 9, 2}},
    {"a place in both states", 2, 0, 0, 3, {0xa, 0x5, 0x5}, 4, {0, 5, 2, 3}, {0, 0, 0, 5}},
    {"both states of a loop", 2, 0, 0, 3, {0, 0, 0x2}, 6, {0, 2, 4, 1, 3, 5}, {0, 0, 2, 4, 1, 3}},
    {"a call as the last word", 2, 0, 0, 3, {0x9, 0x20000, 0x6}, 3, {0, 4, 3}, {0, 0, 4}},
    {"nothing follows reason 3", 0, 0, 0, 2, {3, 0}, 1, {0}, {0}},
    {"nothing follows reason 4", 2, 0, 0, 4, {0xa, 0x11, 0xe, 0}, 3, {0, 5, 2}, {0, 0, 0}},
    {"nothing follows reason 5", 2, 0, 0, 2, {0x20000, 0}, 1, {0}, {0}},
    {"nothing follows reason 6", 0, 0, 0, 3, {0xc0100, 0, 0}, 1, {0}, {0}},
    {"nothing follows reason 7", 0, 0, 0, 3, {0x40050, 0, 0}, 1, {0}, {0}},
    {"nothing follows reason 13", 0, 0, 0, 4, {0x81ffc, 0, 0, 0}, 1, {0}, {0}},
    {"nothing follows reason 13", 5, 0, 1, 5, {0xcfff8, 0, 0, 0, 0}, 1, {0}, {0}},
    {"nothing follows 13, with 7", 0, 0, 0, 5, {0xc1ffc, 0, 0, 0, 0}, 1, {0}, {0}},
    {"13 in main alone", 2, 0, 0, 6, {0x12, 0x81ffc, 0, 0, 0, 0x20000}, 4, {0, 9, 2, 11}, {0, 0, 0, 9}},
    {"13 inside alone", 2, 0, 0, 6, {0xa, 0x19, 0x81ffc, 0, 0, 0x20000}, 3, {0, 5, 2}, {0, 0, 0}},
    {"13 in both states", 2, 0, 0, 5, {0x6, 0x81ffc, 0, 0, 0}, 3, {0, 3, 2}, {0, 0, 0}},
    {"13 in IB mode", 4, 1, 0, 4, {0x81ffc, 0, 0, 0}, 1, {0}, {0}},
    {"a run up to 0x1ffc", 0, 0, 0, 4, {0x81ff8, 0, 0, 0}, 2, {0, 6}, {0, 0}},
    {"one parameter for 0x1ffc", 0, 0, 0, 3, {0x41ffc, 0, 0}, 2, {0, 4}, {0, 0}},
    {"count 0 at 0x1ffc", 0, 0, 0, 2, {0x1ffc, 0}, 2, {0, 2}, {0, 0}},
    {"a non-increasing run at 0x1ffc", 1, 0, 0, 4, {0x40081ffc, 0, 0, 0}, 2, {0, 6}, {0, 0}},
    {"up to 0x1ffc inside", 2, 0, 0, 6, {0xa, 0x19, 0x81ff8, 0, 0, 2 << 16}, 4, {0, 5, 2, 11}, {0, 0, 0, 5}},
    {"a run up to 0x1ffc in IB mode", 5, 1, 1, 4, {0x81ff8, 0, 0, 0}, 2, {0, 6}, {0, 0}},
    {"at 0x1ffc in IB mode", 4, 1, 0, 4, {0x40081ffc, 0, 0, 0}, 2, {0, 6}, {0, 0}},
    {"nothing follows reason 10", 0, 0, 0, 2, {0x2000000c, 0}, 1, {0}, {0}},
    {"a call with 10 finds neither", 2, 0, 0, 2, {0xe, 0}, 1, {0}, {0}},
    {"a call with 12 finds neither", 2, 0, 0, 2, {0xa, 0}, 1, {0}, {0}},
    {"a far target", 2, 0, 0, 2, {0xfffffffe, 0}, 1, {0}, {0}},
    {"a far target", 2, 0, 0, 2, {0x80000001, 0}, 1, {0}, {0}},
    {"nothing follows reason 12", 2, 0, 0, 2, {0x6, 0}, 3, {0, 3, 2}, {0, 0, 0}},
    {"reason 12 behind parameters", 2, 0, 0, 4, {0xa, 0x11, 0x40100, 0}, 3, {0, 5, 2}, {0, 0, 0}},
    {"a jump to the end, inside", 2, 0, 0, 3, {0xa, 0xd, 0xd}, 3, {0, 5, 2}, {0, 0, 0}},
    {"a conditional", 3, 0, 1, 2, {0x10050, 0}, 2, {0, 2}, {0, 0}},
    {"a conditional with SLI off", 3, 0, 0, 2, {0x10050, 0}, 1, {0}, {0}},
    {"a long form in NV04-style", 5, 0, 0, 3, {0x30100, 1, 0}, 1, {0}, {0}},
    {"runs in IB mode", 4, 1, 0, 4, {0x40100, 5, 0x40000100, 0}, 3, {0, 4, 6}, {0, 0, 4}},
    {"a long form in IB mode", 4, 1, 0, 5, {0x40100, 5, 0x30100, 1, 0}, 2, {0, 4}, {0, 0}},
    {"a long form with count 0", 5, 1, 1, 3, {0x30100, 0, 0}, 1, {0}, {0}},
    {"a conditional in IB mode", 5, 1, 1, 2, {0x10050, 0}, 2, {0, 2}, {0, 0}},
    {"no jump in IB mode", 5, 1, 0, 2, {0x5, 0}, 1, {0}, {0}},
    {"no old jump in IB mode", 5, 1, 0, 2, {0x20000004, 0}, 1, {0}, {0}},
    {"no call in IB mode", 5, 1, 0, 2, {0x6, 0}, 1, {0}, {0}},
    {"a method of level 5 in IB mode", 5, 1, 0, 3, {0x40010, 0, 0}, 2, {0, 4}, {0, 0}},
    {"a method that level 4 lacks", 4, 1, 0, 3, {0x40010, 0, 0}, 1, {0}, {0}},
    {"a level that is refused", 6, 0, 0, 2, {0, 0}, 1, {0}, {0}},
    {"a mode that is refused", 5, 2, 0, 2, {0, 0}, 1, {0}, {0}},
    {"a mode that the level lacks", 3, 1, 0, 2, {0, 0}, 1, {0}, {0}},
    {"SLI that is refused", 2, 0, 1, 2, {0, 0}, 1, {0}, {0}},
};

/* The words of a row; every method is permitted. */
static void give_words(uint32_t level, uint32_t sli, const uint32_t *words, uint32_t count)
{
    given.level = level;
    given.sli = sli;
    set_count(&given, count);
    memset(given.map, 0, count);
    fill_permit(&given, 0xff);
    for (uint32_t place = 0; place < count; place++)
        set_word(&given, place, words[place]);
}

/* H11: the room that a row's pairs come to, built here by itself. */
static bool is_room_of(const struct search_row *row)
{
    uint64_t room[2 * ROW_WORDS] = {0};

    for (uint32_t i = 0; i < row->found; i++) {
        room[i] += row->order[i] * (UINT64_C(1) << 32);
        room[row->order[i]] += row->from[i] + 1;
    }
    return memcmp(room, search.room, 2 * row->count * sizeof room[0]) == 0;
}

static void test_search_rows(void)
{
    for (size_t i = 0; i < sizeof search_rows / sizeof search_rows[0]; i++) {
        const struct search_row *row = &search_rows[i];

        give_words(row->level, row->sli, row->words, row->count);
        mode = row->mode;
        for (size_t more = 0; more < 3; more++) {
            do_search(2 * row->count + more);
            check(searched.refusal == REFUSAL_NONE && searched.count == row->found, row->sentence);
            check(is_room_of(row), row->sentence);
        }
    }
}

/* The rule book's room, as it is told there. */
static void test_book_room(void)
{
    static const uint32_t words[] = {0x00040050, 7, 0xe, 0x00020000};
    static const uint64_t room[] = {
        1, UINT64_C(0x400000000), UINT64_C(0x700000000), UINT64_C(0x600000000), 1, 0, 5, 5};

    give_words(3, 0, words, 4);
    fill_permit(&given, 0);
    set_permit(&given, 0, 0x50 / 4, true);
    mode = MODE_NV04;
    do_search(8);
    check(searched.count == 4 && memcmp(search.room, room, sizeof room) == 0, "the rule book's room");
}

/* W17: part words are none, whatever they hold, and need no room. */
static void test_part_words(void)
{
    static const uint32_t words[] = {0x00040100, 0, 0x00040100, 0};

    for (uint32_t count = 0; count <= 3; count++)
        for (size_t part = 0; part < 4; part++) {
            give_words(0, 0, words, 4);
            mode = MODE_NV04;
            given.words_length = 4 * count + part;
            do_search(2 * count);
            check(searched.refusal == REFUSAL_NONE, "a part word needs no room");
            check(searched.count == (count + 1) / 2, "a part word is none");
        }
}

/* G23: permit lists of any length; a method is permitted if its byte is there and its bit set. */
static void test_permit_lengths(void)
{
    static const uint32_t methods[] = {0, 64, 127, 2047};

    for (uint32_t subchannel = 0; subchannel < 8; subchannel++)
        for (unsigned i = 0; i < 4; i++) {
            size_t byte = 256 * subchannel + methods[i] / 8;
            size_t lengths[] = {0, byte, byte + 1, byte + 2, 2048, 4096};

            for (unsigned j = 0; j < 6; j++)
                for (unsigned k = 0; k < 2; k++) {
                    uint32_t words[] = {1 << 18 | subchannel << 13 | methods[i] << 2, 0, 0};

                    give_words(0, 0, words, 3);
                    mode = MODE_NV04;
                    fill_permit(&given, k == 0 ? 0xff : 0);
                    set_permit(&given, subchannel, methods[i], k != 0);
                    given.permit_length = lengths[j];
                    do_search(6);
                    check(searched.count == (k != 0 && lengths[j] > byte ? 2 : 1),
                          "past the list's end nothing");
                }
        }
}

/* One run of subchannel 7, and two words that are 0 behind its parameters. The method is a number. */
static void give_run(uint32_t kind, uint32_t count, uint32_t method)
{
    uint32_t words[] = {kind << 30 | count << 18 | 7 << 13 | method << 2};

    give_words(1, 0, words, 1);
    mode = MODE_NV04;
    set_count(&given, count + 3);
    memset(given.words + 4, 0, 4 * (count + 2));
}

/* G8, G13, G29: runs up to 0x1ffc and past it, whether or not method 0 is permitted; and a list whose end
 * lies within a run ends what follows. */
static void test_runs(void)
{
    for (uint32_t kind = 0; kind < 2; kind++)
        for (uint32_t before = 1; before <= 9; before++)
            for (unsigned i = 0; i < 3 * 3 * 2; i++) {
                size_t length = 2046 + i % 3;
                uint32_t past = i / 3 % 3;
                bool is_cut = before <= 8 ? length < 2048 : length < 2047 || (kind == 0 && length < 2048);
                bool is_wrapping = kind == 0 && past != 0;

                give_run(kind, before + past, 2048 - before);
                set_permit(&given, 7, 0, i / 9 == 0);
                given.permit_length = length;
                do_search(2 * word_count(&given));
                check(searched.count == (is_cut || is_wrapping ? 1 : 3), "methods of a run");
            }
}

/* ---- The repair by hand ---- */

/* G13, H3, H4, H5, H12, H13, H17: words with a map, and what the map becomes; how many places change, and
 * whether the gatekeeper accepts the new map. */
static const struct repair_row {
    const char *sentence;
    uint32_t level;
    uint32_t count;
    uint32_t words[ROW_WORDS];
    uint8_t map[ROW_WORDS];
    uint8_t exact[ROW_WORDS];
    uint32_t changes;
    bool is_accepted;
} repair_rows[] = {
    {"no words", 0, 0, {0}, {0}, {0}, 0, true},
    {"the rule book's case", 3, 4, {0x40050, 7, 0xe, 0x20000}, {1, 1, 1, 255}, {1, 0, 1, 3}, 2, false},
    {"the auditor's", 3, 5, {0x400c0050, 1, 0x20000014, 3, 0x20000008}, {1}, {1, 0, 1, 0, 1}, 2, false},
    {"an unreached run", 3, 3, {0x9, 0x40050, 0}, {1, 0, 1}, {1, 0, 1}, 0, true},
    {"an unreached run", 3, 3, {0x9, 0x40050, 0}, {1, 1, 1}, {1, 0, 1}, 1, true},
    {"an accepted map", 3, 2, {0x9, 0}, {1, 1}, {1, 0}, 1, true},
    {"states, not places alone", 3, 3, {0xa, 0x5, 0x20000}, {1, 1, 3}, {1, 1, 2}, 1, true},
    {"states, not places alone", 3, 3, {0, 0, 0x2}, {3, 1, 0}, {3, 3, 3}, 2, false},
    {"an old jump to the word behind", 2, 2, {0x20000004, 0}, {1, 1}, {1, 1}, 0, true},
    {"every byte 255", 0, 3, {0, 0, 0}, {255, 255, 255}, {1, 1, 1}, 3, true},
    {"low bits that are right", 0, 3, {0, 0, 0}, {5, 9, 0x81}, {1, 1, 1}, 3, true},
    {"a parameter that is no start", 0, 3, {0x40100, 0, 0}, {1, 1, 1}, {1, 0, 1}, 1, true},
    {"a parameter that is reached", 0, 3, {0x40100, 0x20000004, 0x20000004}, {1, 0, 1}, {1, 1, 1}, 1, false},
    {"a parameter reached inside", 2, 3, {0x40100, 0x20000, 0x6}, {1, 0, 1}, {1, 2, 1}, 1, false},
    {"a chain of calls", 2, 4, {0x6, 0xa, 0xe, 0x20000}, {1, 1, 1, 1}, {1, 3, 3, 3}, 3, false},
    {"a call as the last word", 2, 3, {0x9, 0x20000, 0x6}, {1, 1, 1}, {1, 2, 1}, 1, true},
    {"the end inside", 2, 2, {0x6, 0}, {1, 1}, {1, 3}, 1, false},
    {"nothing behind a flaw", 0, 3, {3, 0, 0}, {1, 1, 0}, {1, 0, 0}, 1, false},
    {"nothing behind 13", 0, 4, {0x81ffc, 0, 0, 0}, {1, 0, 0, 1}, {1, 0, 0, 0}, 1, false},
    {"13 inside", 2, 6, {0xa, 0x19, 0x81ffc, 0, 0, 2 << 16}, {1, 1, 2, 0, 0, 2}, {1, 1, 2}, 1, false},
    {"13 where nothing leads", 0, 5, {0x20000010, 0x81ffc, 0, 0, 0}, {1, 1}, {1, 0, 0, 0, 1}, 2, true},
    {"up to 0x1ffc", 0, 4, {0x81ff8, 0, 0, 0}, {1, 0, 0, 0}, {1, 0, 0, 1}, 1, true},
    {"up to 0x1ffc inside", 2, 6, {0xa, 0x19, 0x81ff8, 0, 0, 2 << 16}, {1}, {1, 1, 2, 0, 0, 2}, 3, true},
    {"at 0x1ffc, and not increasing", 1, 4, {0x40081ffc, 0, 0, 0}, {1}, {1, 0, 0, 1}, 1, true},
    {"neither pair of a bad call", 2, 2, {0xe, 0}, {0, 3}, {1, 0}, 2, false},
};

/* H15: whether the gatekeeper accepts what the repair has left. */
static bool is_accepted_now(void)
{
    struct submission submission = {given.level, given.sli,        repair.words,  given.words_length,
                                    repair.map,  given.map_length, repair.permit, given.permit_length};
    struct judgement judgement = model_judge(&submission);

    return judgement.refusal == REFUSAL_NONE && judgement.reason == REASON_NONE;
}

static void test_repair_rows(void)
{
    for (size_t i = 0; i < sizeof repair_rows / sizeof repair_rows[0]; i++) {
        const struct repair_row *row = &repair_rows[i];

        give_words(row->level, 0, row->words, row->count);
        memcpy(given.map, row->map, row->count);
        for (size_t more = 0; more < 3; more++) {
            do_repair(row->count + more, 2 * row->count + more);
            check(repaired.refusal == REFUSAL_NONE && repaired.count == row->changes, row->sentence);
            check(row->count == 0 || memcmp(repair.map, row->exact, row->count) == 0, row->sentence);
            check(is_accepted_now() == row->is_accepted, row->sentence);
        }
    }
}

/* H13: the rule book's two entries. */
static void test_book_list(void)
{
    static const uint32_t words[] = {0x00040050, 7, 0xe, 0x00020000};
    static const uint8_t map[] = {1, 1, 1, 255};

    give_words(3, 0, words, 4);
    memcpy(given.map, map, 4);
    do_repair(7, 9);
    check(repaired.count == 2, "the rule book's list");
    check(repair.list[0] == UINT64_C(0x0000000100000001), "the rule book's first entry");
    check(repair.list[1] == UINT64_C(0x000003ff00000003), "the rule book's second entry");
}

/* H12, H13: any byte at a place that is reached in neither state, in main, inside, or in both. */
static void test_bytes(void)
{
    static const uint32_t words[] = {0xa, 0x15, 0x9, 3, 3};
    static const uint8_t exact[] = {1, 1, 2, 0, 0};

    for (uint32_t place = 0; place < 5; place++)
        for (uint32_t byte = 0; byte < 256; byte++) {
            uint64_t entry = place | (uint64_t)byte << 32 | (uint64_t)exact[place] << 40;

            give_words(2, 0, words, 5);
            memcpy(given.map, exact, 5);
            given.map[place] = (uint8_t)byte;
            do_fitting_repair();
            check(memcmp(repair.map, exact, 5) == 0, "any byte becomes the exact one");
            check(repaired.count == (byte == exact[place] ? 0 : 1), "a byte that stays is not listed");
            check(repaired.count == 0 || repair.list[0] == entry, "the entry of a byte");
            check(model_change(place, (uint8_t)byte, exact[place]) == entry, "an entry by itself");
        }
}

/* G10, G28: jumps and calls from place 0 onto each place, the end and past it; zeros follow, and a return of
 * which main never hears. */
static void test_targets(void)
{
    enum { COUNT = 12 };

    for (uint32_t target = 0; target <= COUNT + 2; target++) {
        uint32_t words[COUNT] = {4 * target | 1};

        give_words(2, 0, words, COUNT);
        do_fitting_repair();
        check(repair.map[0] == 1, "place 0 is reached");
        for (uint32_t place = 1; place < COUNT; place++)
            check(repair.map[place] == (target != 0 && place >= target ? 1 : 0), "from a target on");
        check(is_accepted_now() == (target <= COUNT), "a target past the end is bad");
        words[0] = 4 * target | 2;
        give_words(2, 0, words, COUNT);
        set_word(&given, 1, 4 * COUNT | 1);
        do_fitting_repair();
        check(repair.map[1] % 2 == (target < COUNT), "the word behind a call");
        for (uint32_t place = 2; place < COUNT; place++)
            check(repair.map[place] == (target > 1 && target < COUNT && place >= target ? 2 : 0), "inside");
    }
}

/* ---- Refusals ---- */

/* R1, R4, R8, R9, R11, R21, R37: the repair's conditions, in their order, each by itself. */
static uint32_t first_of_refusals(size_t list_length, size_t work_length)
{
    size_t length = given.words_length;
    const struct {
        uint32_t number;
        bool applies;
    } conditions[] = {
        {1, given.level >= 6},
        {4, given.level <= 2 && given.sli != 0},
        {8, length >= 32769},
        {9, (length & 3) != 0},
        {9, 4 * given.map_length + (length & 3) != length},
        {9, given.permit_length != 2048},
        {11, 4 * list_length < length},
        {11, 2 * work_length < length},
    };

    for (unsigned i = 0; i < sizeof conditions / sizeof conditions[0]; i++)
        if (conditions[i].applies)
            return conditions[i].number;
    return REFUSAL_NONE;
}

static void test_refusal(size_t list_length, size_t work_length)
{
    do_repair(list_length, work_length);
    check(repaired.refusal == first_of_refusals(list_length, work_length), "the repair's order");
}

/* R1, R4, R9, R11, R37: any two or more refusals at once, by numbers that a narrower type would cut to good
 * ones, with rooms that are one short or longer; also where nothing would change. */
static void test_refusals(void)
{
    static const uint32_t levels[] = {0, 2, 3, 5, 6, 259};
    static const uint32_t slis[] = {0, 1, 256, UINT32_MAX};
    static const size_t parts[] = {0, 1, 3};
    static const size_t permits[] = {2047, 2048, 2049};
    static const uint32_t zeros[ROW_WORDS] = {0};

    for (unsigned i = 0; i < 6 * 4 * 3 * 3; i++)
        for (size_t map_length = 1; map_length <= 3; map_length++)
            for (unsigned j = 0; j < 5 * 5; j++) {
                give_words(levels[i % 6], slis[i / 6 % 4], zeros, 4);
                memset(given.map, i % 2 == 0 ? 1 : 7, 4);
                given.words_length = 8 + parts[i / 24 % 3];
                given.map_length = map_length;
                given.permit_length = permits[i / 72];
                test_refusal(j % 5, 2 + j / 5);
            }
}

/* R8, R9, R11, R37: around the largest size, with every byte of the map 255, and with good maps. */
static void test_sizes(void)
{
    for (size_t length = 32764; length <= 32772; length++)
        for (unsigned i = 0; i < 18; i++) {
            given.level = i == 17 ? 6 : 5;
            given.sli = 0;
            set_count(&given, 8194);
            memset(given.words, 0, given.words_length);
            memset(given.map, i % 2 == 0 ? 255 : 1, given.map_length);
            fill_permit(&given, 0xff);
            given.words_length = length;
            given.map_length = length / 4 + (i == 16 ? 1 : 0);
            test_refusal(length / 4 - i / 2 % 2, length / 4 * 2 - i / 4 % 2 + (i >= 8 ? 30 : 0));
            if (repaired.refusal == REFUSAL_NONE)
                check(repaired.count == (i % 2 == 0 ? length / 4 : 0), "every byte changes, or none");
        }
}

/* R8, R36: the search around its largest size, and rooms around what it asks for. */
static void test_search_sizes(void)
{
    mode = MODE_NV04;
    given.level = 0;
    given.sli = 0;
    set_count(&given, SIZE_LIMIT + 2);
    memset(given.words, 0, given.words_length);
    fill_permit(&given, 0);
    for (size_t length = 4194303; length <= 4194308; length++) {
        given.words_length = length;
        do_search(length / 2);
        check(searched.refusal == (length > 4194304 ? 8 : 0), "the search's SIZE");
        check(searched.count == (length > 4194304 ? 0 : length / 4), "as many as can be");
        do_search(length / 4 * 2 - 1);
        check(searched.refusal == (length > 4194304 ? 8 : 11), "SIZE comes before ROOM");
    }
    for (size_t length = 0; length <= 17; length++)
        for (size_t entries = 0; entries <= 10; entries++) {
            given.words_length = length;
            do_search(entries);
            check(searched.refusal == (entries < length / 4 * 2 ? 11 : 0), "two entries a word");
        }
}

/* R8, R9, R31: lengths that no memory has. Nothing is lent, so that whatever is read or written fails. */
static void test_vast(void)
{
    static const size_t lengths[] = {0, 8, (size_t)1 << 32, ((size_t)1 << 32) + 8, SIZE_MAX - 3, SIZE_MAX};
    struct repair none = {.level = 5, .permit_length = 2048};
    struct search nothing = {.permit_length = SIZE_MAX};

    for (unsigned i = 2; i < 6; i++)
        for (unsigned j = 0; j < 6 * 6; j++) {
            none.words_length = lengths[i];
            none.map_length = lengths[j % 6];
            none.list_length = lengths[j / 6];
            check(model_repair(&none).refusal == REFUSAL_SIZE, "vast words");
            nothing.words_length = lengths[i];
            nothing.room_length = lengths[j % 6];
            check(model_search(&nothing).refusal == REFUSAL_SIZE, "vast words for the search");
            none.words_length = lengths[j % 2];
            none.map_length = lengths[i];
            none.work_length = lengths[j / 6];
            check(model_repair(&none).refusal == REFUSAL_LENGTH, "a vast map");
            none.map_length = lengths[j % 2] / 4;
            none.permit_length = lengths[i];
            check(model_repair(&none).refusal == REFUSAL_LENGTH, "a vast permit list");
            none.permit_length = 2048;
        }
    none =
        (struct repair){.level = 5, .permit_length = 2048, .list_length = SIZE_MAX, .work_length = SIZE_MAX};
    check(model_repair(&none).refusal == REFUSAL_NONE, "vast rooms, and no words");
    none.words_length = 8;
    none.map_length = 2;
    none.work_length = 3;
    check(model_repair(&none).refusal == REFUSAL_ROOM, "a vast list's room alone");
    none.work_length = SIZE_MAX;
    none.list_length = 1;
    check(model_repair(&none).refusal == REFUSAL_ROOM, "a vast work room alone");
}

/* ---- A second reading, one condition at a time ---- */

enum { FEW_WORDS = 64 };

/* The pairs of few words, by number. */
static uint32_t pair_count(void)
{
    return 2 * word_count(&given);
}

static struct reading command_at(uint32_t pair)
{
    struct setting setting = {given.level, mode, given.sli != 0};

    return model_read(setting, word_of(&given, pair / 2), 0xabcdef);
}

/* W15: how many parameters come behind. */
static uint32_t parameters_of(uint32_t pair)
{
    struct reading command = command_at(pair);

    return command.number == READING_INCREASING || command.number == READING_NON_INCREASING
               ? command.value[0]
               : 0;
}

/* G7, G8, G23, G29: whether parameter k may go where it goes. */
static bool is_allowed(uint32_t pair, uint32_t k)
{
    struct reading command = command_at(pair);
    uint32_t number = command.value[2] / 4 + (command.number == READING_INCREASING ? k : 0);
    uint32_t byte = command.value[1] * 256 + number % 2048 / 8;
    uint32_t present = given.permit_length > byte ? given.permit[byte] : 0;

    return model_present(given.level, number % 2048) && (present >> number % 8 & 1) == 1;
}

/* G13: whether a run has more parameters than there are methods from its own on. */
static bool is_overlong(uint32_t pair)
{
    struct reading command = command_at(pair);

    return command.number == READING_INCREASING && parameters_of(pair) > 2048 - command.value[2] / 4;
}

/* G27: the next pairs, the end and beyond too; how many there are. */
static unsigned next_pairs(uint32_t pair, uint32_t next[2])
{
    struct reading command = command_at(pair);

    switch (command.number) {
    case READING_CALL:
        next[0] = command.value[0] / 4 * 2 + 1;
        next[1] = (pair / 2 + 1) * 2;
        return 2;
    case READING_OLD_JUMP:
    case READING_JUMP:
        next[0] = command.value[0] / 4 * 2 + pair % 2;
        return 1;
    case READING_INCREASING:
    case READING_NON_INCREASING:
    case READING_SLI:
        next[0] = (pair / 2 + 1 + parameters_of(pair)) * 2 + pair % 2;
        return 1;
    default:
        return 0;
    }
}

/* G3 to G8, G10, G12, G13, H2: whether a pair has one of the reasons that stop a path. */
static bool has_flaw(uint32_t pair)
{
    static const bool is_command[] = {[1] = true, [2] = true, [3] = true, [4] = true,
                                      [6] = true, [7] = true, [8] = true, [READING_PAST] = false};
    uint32_t next[2];
    uint32_t number = command_at(pair).number;
    unsigned count = next_pairs(pair, next);
    bool flaw = !is_command[number] || (number == READING_CALL && pair % 2 == 1) ||
                (number == READING_RETURN && pair % 2 == 0) ||
                pair / 2 + parameters_of(pair) >= word_count(&given) || is_overlong(pair);

    for (uint32_t k = 0; k < parameters_of(pair) && !flaw; k++)
        flaw = !is_allowed(pair, k);
    for (unsigned i = 0; i < count; i++) {
        bool is_past = next[i] / 2 > word_count(&given);
        bool is_end = next[i] / 2 == word_count(&given);

        flaw = flaw || is_past || (is_end && next[i] % 2 == 1);
    }
    return flaw;
}

/* What each pair leads to, worked out once for a submission; then which pairs are reached, by rounds from
 * the last pair to the first, until a round brings nothing. */
static struct {
    bool flaw[2 * FEW_WORDS];
    unsigned next_count[2 * FEW_WORDS];
    uint32_t next[2 * FEW_WORDS][2];
    bool reached[2 * FEW_WORDS];
} graph;

/* H2: one round; whether it brought something. */
static bool reach_more(void)
{
    bool is_more = false;

    for (uint32_t pair = pair_count(); pair-- != 0;)
        for (unsigned i = 0; graph.reached[pair] && !graph.flaw[pair] && i < graph.next_count[pair]; i++) {
            uint32_t next = graph.next[pair][i];

            if (next == pair_count() || graph.reached[next])
                continue;
            graph.reached[next] = true;
            is_more = true;
        }
    return is_more;
}

/* H1, H2: the whole of it. */
static void make_graph(void)
{
    for (uint32_t pair = 0; pair < pair_count(); pair++) {
        graph.flaw[pair] = has_flaw(pair);
        graph.next_count[pair] = next_pairs(pair, graph.next[pair]);
        graph.reached[pair] = pair == 0;
    }
    while (reach_more())
        continue;
}

/* H3, H4: whether a place is bad, asked of every pair of places. */
static bool has_bad_place(void)
{
    for (uint32_t pair = 0; pair < pair_count(); pair++) {
        if (!graph.reached[pair])
            continue;
        if (graph.flaw[pair])
            return true;
        for (uint32_t k = 1; k <= parameters_of(pair); k++)
            if (graph.reached[2 * (pair / 2 + k)] || graph.reached[2 * (pair / 2 + k) + 1])
                return true;
    }
    return false;
}

/* ---- What must hold of any submission ---- */

/* H10: each reached pair is found, and once; no other is. */
static void test_found(void)
{
    uint32_t reached = 0;
    bool seen[2 * FEW_WORDS] = {false};

    for (uint32_t pair = 0; pair < pair_count(); pair++) {
        reached += graph.reached[pair];
        check((lower(pair) != 0) == graph.reached[pair], "found are the reached pairs");
    }
    check(searched.count == reached, "as many as are reached");
    for (uint32_t i = 0; i < pair_count(); i++) {
        if (i >= reached) {
            check(upper(i) == 0, "behind the last found is 0");
            continue;
        }
        check(upper(i) < pair_count() && lower(upper(i)) != 0 && !seen[upper(i)], "each pair is found once");
        seen[upper(i)] = true;
    }
}

/* H9, H10, H11: of the pairs that lead to one, that which was found first is the one that it was found from;
 * and pairs are found in the order of those, and of one in the order of its next pairs. */
static void test_order(void)
{
    uint32_t first[2 * FEW_WORDS] = {0};
    uint32_t from[2 * FEW_WORDS] = {0};

    for (uint32_t i = searched.count; i-- != 0;)
        for (unsigned j = graph.flaw[upper(i)] ? 0 : graph.next_count[upper(i)]; j-- != 0;) {
            uint32_t next = graph.next[upper(i)][j];

            if (next == pair_count() || next == 0)
                continue;
            first[next] = 2 * i + j + 1;
            from[next] = upper(i);
        }
    for (uint32_t i = 0; i < searched.count; i++) {
        check(lower(upper(i)) == from[upper(i)] + 1, "found from the first that leads there");
        check(i == 0 ? upper(0) == 0 : first[upper(i)] > first[upper(i - 1)], "found in turn");
        check(i == 0 || first[upper(i)] <= 2 * i, "found from one that was found before");
    }
}

static void test_search(struct draw *draw)
{
    make_graph();
    do_search(pair_count() + (draw_once_in(draw, 2) ? draw_below(draw, 9) : 0));
    check(searched.refusal == REFUSAL_NONE, "a search with room is not refused");
    test_found();
    test_order();
    if (pair_count() != 0) {
        do_search(pair_count() - 1 - draw_below(draw, pair_count()));
        check(searched.refusal == REFUSAL_ROOM, "a search without room is refused");
    }
}

/* H5, H8, H12: the map is the exact one, by the second reading, and nothing else would do. */
static void test_exact(void)
{
    for (uint32_t place = 0; place < word_count(&given); place++)
        check(repair.map[place] == graph.reached[2 * place] + 2 * graph.reached[2 * place + 1],
              "the exact map");
}

/* H16, H17: over the map that came out, another repair changes nothing; over any other, it gives the same.
 */
static void test_again(struct draw *draw)
{
    uint8_t exact[FEW_WORDS];
    uint32_t count = word_count(&given);

    if (count == 0)
        return;
    memcpy(exact, repair.map, given.map_length);
    memcpy(given.map, exact, given.map_length);
    do_fitting_repair();
    check(repaired.refusal == REFUSAL_NONE && repaired.count == 0 && is_map_kept(),
          "repaired again, it stays");
    draw_map(draw, &given);
    do_repair(count + draw_below(draw, 5), 2 * count);
    check(memcmp(repair.map, exact, given.map_length) == 0, "whatever map was there");
    memset(given.map, 255, given.map_length);
    do_repair(count, 2 * count + draw_below(draw, 5));
    check(repaired.count == count && memcmp(repair.map, exact, given.map_length) == 0, "every byte 255");
}

/* H17: what an accepted map has. */
static void test_contained(void)
{
    struct submission submission = submission_of(&given);
    struct judgement judgement = model_judge(&submission);
    bool is_contained = true;

    for (size_t place = 0; place < given.map_length; place++)
        is_contained = is_contained && (repair.map[place] & ~given.map[place]) == 0;
    check(judgement.reason != REASON_NONE || is_contained, "an accepted map has every exact mark");
    check(judgement.reason != REASON_NONE || is_accepted_now(),
          "where any map is accepted, the exact one is");
}

/* R37, H8, H10, H12 to H17: a submission that may be refused. */
static void test_submission(struct draw *draw)
{
    uint32_t count = word_count(&given);
    size_t list_length = count + draw_below(draw, 4);
    size_t work_length = 2 * count + draw_below(draw, 4);

    mode = MODE_NV04;
    if (draw_once_in(draw, 8))
        list_length -= list_length < 2 ? list_length : 2;
    if (draw_once_in(draw, 8))
        work_length -= work_length < 2 ? work_length : 2;
    test_refusal(list_length, work_length);
    if (repaired.refusal != REFUSAL_NONE && repaired.refusal != REFUSAL_ROOM)
        return;
    do_fitting_repair();
    check(repaired.refusal == REFUSAL_NONE, "rooms that are asked for");
    test_search(draw);
    test_exact();
    test_contained();
    check(is_accepted_now() != has_bad_place(), "accepted exactly if no place is bad");
    test_again(draw);
}

/* W13, G3, G23: the search alone, at any setting, and with a permit list of any length. */
static void test_setting(struct draw *draw)
{
    static const uint32_t levels[] = {0, 1, 2, 3, 4, 5, 4, 5, 4, 5, 6, 256};
    static const uint32_t modes[] = {0, 0, 1, 1, 1, 2, 256};

    given.level = draw_among(draw, levels, sizeof levels / sizeof levels[0]);
    given.sli = draw_below(draw, 2);
    mode = draw_among(draw, modes, sizeof modes / sizeof modes[0]);
    if (draw_once_in(draw, 2))
        given.permit_length = draw_below(draw, 2100);
    given.words_length += draw_below(draw, 4);
    test_search(draw);
}

static uint32_t draw_size(struct draw *draw)
{
    return draw_below(draw, FEW_WORDS / 2);
}

static void test_drawn(struct draw *draw)
{
    draw_sound(draw, &given, draw_size(draw));
    test_submission(draw);
    draw_sound(draw, &given, draw_size(draw));
    damage(draw, &given, draw_below(draw, damage_count()));
    test_submission(draw);
    draw_sound(draw, &given, draw_size(draw));
    refuse(draw, &given);
    test_submission(draw);
    draw_wild(draw, &given, draw_size(draw));
    test_submission(draw);
    draw_tangle(draw, &given, draw_size(draw));
    test_submission(draw);
    draw_tangle(draw, &given, draw_size(draw));
    if (draw_once_in(draw, 2))
        for (uint32_t place = 0; place < word_count(&given); place++)
            set_word(&given, place, word_of(&given, place) & ~UINT32_C(3));
    test_setting(draw);
}

/* H8: many words, where the map and the list are told by the words alone: zeros are all reached, and of
 * calls of the last place, a return, all but the last are reached in main, the last in both. */
static void test_large(void)
{
    uint32_t last = REPAIR_LIMIT - 1;

    for (unsigned i = 0; i < 2; i++) {
        given.level = 2;
        given.sli = 0;
        set_count(&given, REPAIR_LIMIT);
        fill_permit(&given, 0);
        memset(given.map, 2, given.map_length);
        for (uint32_t place = 0; place < last; place++)
            set_word(&given, place, i == 0 ? 0 : 4 * last | 2);
        set_word(&given, last, i == 0 ? 0 : 0x20000);
        do_repair(LIST_ROOM, WORK_ROOM);
        check(repaired.count == REPAIR_LIMIT, "all are marked");
        check(repair.map[0] == 1 && memcmp(repair.map, repair.map + 1, last - 1) == 0, "in main");
        check(repair.map[last] == (i == 0 ? 1 : 3), "the last in both");
        check(repair.list[last] == model_change(last, 2, i == 0 ? 1 : 3), "the last entry");
        mode = MODE_NV04;
        do_search(2 * REPAIR_LIMIT);
        check(searched.count == REPAIR_LIMIT + i, "so many pairs");
        check(upper(searched.count - 1) == 2 * last, "the last is found last");
    }
}

/* ---- Numbers for C ---- */

/* H18: answers, and their numbers. */
static void test_repair_numbers(void)
{
    check(model_repair_number((struct outcome){0, 0}) == 0, "nothing changed");
    check(model_repair_number((struct outcome){0, 2}) == 0x2000000, "two changes");
    check(model_repair_number((struct outcome){0, 8192}) == UINT64_C(0x2000000000), "all changed");
    check(model_repair_number((struct outcome){11, 0}) == 0xb00, "ROOM");
    check(model_repair_number((struct outcome){1, 0}) == 0x100, "LEVEL");
}

/* W19, W20, W21, W22, W23, W24: the rule book's words to try, and words with every field full. */
static void test_reading_rows(void)
{
    static const struct {
        uint32_t level;
        uint32_t mode;
        uint32_t sli;
        uint32_t word;
        uint32_t next;
        uint64_t number;
    } rows[] = {
        {3, 0, 1, 0x00000000, 0, 0x1},
        {3, 0, 1, 0x00082180, 0, UINT64_C(0x0000022180000001)},
        {3, 0, 1, 0x400cfffc, 9, UINT64_C(0x000003fffc000002)},
        {0, 0, 0, 0x400cfffc, 9, 0x20009},
        {3, 0, 7, 0x00010050, 9, UINT64_C(0x0000000500000003)},
        {3, 0, 0, 0x00010050, 9, 0x40009},
        {2, 0, 0, 0x00010050, 9, 0x20009},
        {4, 1, 0, 0x00010050, 9, 0x40009},
        {3, 0, 1, 0x00020000, 9, 0x4},
        {1, 0, 0, 0x00020000, 9, 0x20009},
        {5, 1, 1, 0x00020000, 9, 0x30009},
        {3, 0, 1, 0x00020004, 9, 0x10009},
        {3, 0, 1, 0x00000003, 9, 0x10009},
        {5, 1, 0, UINT32_MAX, UINT32_MAX, 0x10009},
        {0, 0, 0, 0x00034100, 9, 0x30009},
        {5, 0, 1, 0x0003fffc, UINT32_MAX, 0x30009},
        {4, 1, 0, 0x3ffffffc, 9, 0x30009},
        {3, 0, 1, 0x3ffffffc, 9, UINT64_C(0x1ffffffc00000006)},
        {3, 0, 1, 0x00002002, 9, UINT64_C(0x0000200000000008)},
        {2, 0, 0, 0x00010001, 9, UINT64_C(0x0001000000000007)},
        {2, 0, 0, 0xfffffffd, 9, UINT64_C(0xfffffffc00000007)},
        {4, 1, 0, 0x00034100, 9, UINT64_C(0x0000094100000005)},
        {4, 1, 0, 0x0003fffc, UINT32_MAX, UINT64_C(0xfffffffffc000005)},
        {4, 1, 0, 0x0003fffc, 0xff000000, UINT64_C(0x000000fffc000005)},
        {5, 0, 0, 0x1ffcfffc, 0, UINT64_C(0x0007fffffc000001)},
        {5, 0, 1, 0x0001fff0, 0, UINT64_C(0x00000fff00000003)},
        {6, 2, 1, 0, 0, 0x10a},
        {5, 2, 1, 0, 0, 0x20a},
        {3, 1, 1, 0, 0, 0x20a},
        {2, 0, 256, 0, 0, 0x40a},
    };

    for (size_t i = 0; i < sizeof rows / sizeof rows[0]; i++) {
        uint64_t number =
            model_reading_number(rows[i].level, rows[i].mode, rows[i].sli, rows[i].word, rows[i].next);

        check(number == rows[i].number, "a reading for C");
    }
}

/* W1 to W8, W19: the number of a form that may be used, by the letters of its pattern: a field stands from
 * its bit on. */
static uint64_t number_by_pattern(unsigned form, uint32_t word, uint32_t next)
{
    const char *pattern = patterns[form - 1];
    uint64_t count = gather(pattern_bits(pattern, 'C'), word);
    uint64_t subchannel = gather(pattern_bits(pattern, 'S'), word);
    uint64_t other = gather(pattern_bits(pattern, 'M') | pattern_bits(pattern, 'J'), word);

    switch (form) {
    case 3:
        return form + other * (UINT64_C(1) << 32);
    case 6:
    case 7:
    case 8:
        return form + 4 * other * (UINT64_C(1) << 32);
    case 4:
        return form;
    case 5:
        count = next % (UINT32_C(1) << 24);
        break;
    default:
        break;
    }
    return form + 4 * other * (UINT64_C(1) << 24) + subchannel * (UINT64_C(1) << 37) +
           count * (UINT64_C(1) << 40);
}

/* W21, W22, W23: why a form is reserved at a setting that is not refused. What is neither the mode's nor
 * SLI's is the level's; an SLI conditional is SLI's only from its own level on. */
static uint32_t why_of_form(struct setting setting, unsigned form)
{
    if (form == READING_LONG || (setting.mode == MODE_IB && form != READING_SLI))
        return 3;
    return form == READING_SLI && setting.level >= 3 ? 4 : 2;
}

/* W11, W12, W13, W19, W24: words of every form at any setting; what is no command is its number, with the
 * refusal in the byte above, or the why in the next. */
static void test_reading_forms(struct draw *draw)
{
    for (unsigned i = 0; i < 60000; i++) {
        uint32_t level = draw_below(draw, 7);
        uint32_t sli = draw_once_in(draw, 2) ? 0 : draw_enabled(draw);
        unsigned form = 1 + draw_below(draw, PATTERNS);
        uint32_t word = draw_form(draw, patterns[form - 1]);
        uint32_t next = draw_number(draw);
        struct setting setting = {level, draw_below(draw, 8) / 3, sli != 0};
        uint64_t number = model_reading_number(level, setting.mode, sli, word, next);
        struct reading reading = model_read(setting, word, next);

        if (reading.number == READING_REFUSED)
            check(number == 10 + 256 * model_setting_refusal(setting), "a refused reading for C");
        else if (reading.number == READING_RESERVED)
            check(number == 9 + 65536 * why_of_form(setting, form), "a reserved reading for C");
        else
            check(number == number_by_pattern(form, word, next), "a form's reading for C");
    }
}

/* ---- The program ---- */

int main(void)
{
    struct draw draw = {0x4e9a};

    test_search_rows();
    test_book_room();
    test_part_words();
    test_permit_lengths();
    test_runs();
    test_repair_rows();
    test_book_list();
    test_bytes();
    test_targets();
    test_refusals();
    test_sizes();
    test_search_sizes();
    test_vast();
    test_large();
    test_repair_numbers();
    test_reading_rows();
    test_reading_forms(&draw);
    for (unsigned i = 0; i < 5000; i++)
        test_drawn(&draw);
    printf("repair model: %" PRIu64 " checks\n", checks);
    return 0;
}

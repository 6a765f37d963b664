/* Writes the vectors of words to standard output: questions and the model's answers, as little-endian words.
 * A record starts with its kind:
 *   1 READ     level, mode, SLI, word, next | number, three values, why
 *   2 READ_AT  level, mode, SLI, words lent, place (low, high), the first four words
 *              | number, three values, why
 *   3 WRITE    level, mode, SLI, number, three values, the why handed in, room
 *              | refusal, count, why, the four words of the output
 *   4 PRESENT  level, method | 0 or 1
 * A why is that of a reserved word, or of FORM, and 0 of anything else; the one handed in is 1 to 4 where the
 * number is 9, and else 0. Lent words after the fourth are 0. The four words of an output hold 0xa5a50000 to
 * 0xa5a50003 before; the first `room` of them are lent. With --counts it prints how many records there are of
 * each kind, and how many per answer, instead. */
#include "pattern.h"
#include "vectors.h"
#include "word.h"

/* What is counted: the kinds of record, which stand in the output under these numbers, then what --counts
 * tells of whys. */
enum {
    READ = 1,
    READ_AT = 2,
    WRITE = 3,
    PRESENT = 4,
    READ_WHY = 5,
    READ_AT_WHY = 6,
    LEVEL_FORM = 7,
    MODE_FORM = 8,
    WRITE_WHY = 9,
    HANDED_WHY = 10,
    FIELD_WHY = 11
};

/* ---- Settings ---- */

enum { GRID = 42, SETTINGS = 66 };

/* R1, R2, R4: setting i of SETTINGS. The first GRID are levels 0 to 6 with modes 0 to 2 and SLI off and on;
 * then come numbers that a narrower type would cut to good ones. */
static struct setting setting_at(unsigned i)
{
    static const uint32_t pairs[][2] = {
        {255, 0}, {256, 0}, {UINT32_MAX, 0}, {256, 1},        {0, 256},   {5, 256},
        {4, 257}, {5, 255}, {0, UINT32_MAX}, {5, UINT32_MAX}, {256, 256}, {UINT32_MAX, UINT32_MAX},
    };
    unsigned pair = (i - GRID) / 2;

    if (i < GRID)
        return (struct setting){i / 6, i / 2 % 3, i % 2 == 1};
    return (struct setting){pairs[pair][0], pairs[pair][1], i % 2 == 1};
}

static bool is_accepted(struct setting setting)
{
    return model_read(setting, 0, 0).number != READING_REFUSED;
}

/* ---- READ ---- */

/* W12, W21, W22: the form of a word, at whichever setting it is one; READING_RESERVED where it has none. */
static uint32_t form_of(uint32_t word)
{
    uint32_t nv04 = model_read((struct setting){5, MODE_NV04, true}, word, 0).number;

    return nv04 == READING_RESERVED ? model_read((struct setting){5, MODE_IB, true}, word, 0).number : nv04;
}

/* Counts a why, where there is one. */
static void count_why(struct vectors *vectors, uint32_t kind, uint32_t why)
{
    if (why != WHY_NONE)
        count_one(vectors, kind, why);
}

/* W21, W22: counts the form of a word that is reserved by its level or its mode. */
static void count_form(struct vectors *vectors, uint32_t why, uint32_t word)
{
    if (why == WHY_LEVEL)
        count_one(vectors, LEVEL_FORM, form_of(word));
    if (why == WHY_MODE)
        count_one(vectors, MODE_FORM, form_of(word));
}

static void put_read(struct vectors *vectors, struct setting setting, uint32_t word, uint32_t next)
{
    struct reading read = model_read(setting, word, next);
    uint32_t words[] = {setting.level, setting.mode,  setting.sli,   word,          next,
                        read.number,   read.value[0], read.value[1], read.value[2], read.why};

    put_record(vectors, READ, words, sizeof words / sizeof words[0], read.number);
    count_why(vectors, READ_WHY, read.why);
    count_form(vectors, read.why, word);
}

/* The next word is drawn. No call here has two drawn arguments, as C leaves open which comes first. */
static void put_read_any(struct vectors *vectors, struct setting setting, uint32_t word)
{
    put_read(vectors, setting, word, draw_number(&vectors->draw));
}

/* Half the time a word of one of the forms, half the time a word that may be anything. */
static uint32_t draw_any(struct draw *draw)
{
    uint32_t choice = draw_below(draw, 2 * PATTERNS);

    return choice < PATTERNS ? draw_form(draw, patterns[choice]) : draw_word(draw);
}

/* W1, W2, W3, W4, W5, W6, W7, W8, W9, W11: field limits, which are 0, 1, the largest but one and the largest,
 * each field in turn, the others drawn. */
static void put_read_limits(struct vectors *vectors, struct setting setting, const char *pattern)
{
    for (const char *letter = "CSMJ"; *letter != '\0'; letter++) {
        uint32_t field = pattern_bits(pattern, *letter);
        uint32_t largest = gather(field, UINT32_MAX);
        uint32_t limits[] = {0, 1, largest - 1, largest};

        for (unsigned i = 0; field != 0 && i < 4; i++) {
            uint32_t word = draw_form(&vectors->draw, pattern) & ~field;

            put_read_any(vectors, setting, word | spread(field, limits[i]));
        }
    }
    /* Also the form that has no field, and once more all fields at their least and largest. */
    put_read(vectors, setting, pattern_bits(pattern, '1'), 0);
    put_read(vectors, setting, ~pattern_bits(pattern, '0'), UINT32_MAX);
}

/* W10, W12: each reserved neighbour, of which the form's fixed bits are turned over, one at a time. */
static void put_read_neighbours(struct vectors *vectors, struct setting setting, const char *pattern)
{
    uint32_t fixed = pattern_bits(pattern, '0') | pattern_bits(pattern, '1');

    for (unsigned i = 0; i < 32; i++) {
        uint32_t bit = UINT32_C(1) << i;

        if (fixed & bit)
            put_read_any(vectors, setting, draw_form(&vectors->draw, pattern) ^ bit);
    }
}

/* W5, W14: counts at their limits, with bits above them. */
static void put_read_next(struct vectors *vectors, struct setting setting)
{
    static const uint32_t nexts[] = {0,          1,          0x00fffffe, 0x00ffffff, 0x01000000,
                                     0x80000001, 0xff000000, 0xff00abcd, 0xfffffffe, UINT32_MAX};

    for (unsigned i = 0; i < sizeof nexts / sizeof nexts[0]; i++)
        put_read(vectors, setting, draw_form(&vectors->draw, patterns[READING_LONG - 1]), nexts[i]);
}

/* W10, W11, W12, W13: the rule book's words to try, whatever the setting. The last is a jump, though its
 * upper half is that of an SLI conditional. */
static void put_read_numbers(struct vectors *vectors, struct setting setting)
{
    static const uint32_t words[] = {0x00000000, 0x00082180, 0x400cfffc, 0x00010050, 0x00020000, 0x00034100,
                                     0x3ffffffc, 0x00002002, 0x00020004, 0x00000003, 0x00010001};

    for (unsigned i = 0; i < sizeof words / sizeof words[0]; i++)
        put_read(vectors, setting, words[i], 3);
}

/* W20, W21, W22, W23, W24: for each why that the setting has, so many words that are reserved for it. */
static void put_read_whys(struct vectors *vectors, struct setting setting, unsigned times)
{
    for (uint32_t why = WHY_FORM; why <= WHY_SLI; why++)
        for (unsigned i = 0; i < times && why_fits(setting, why); i++)
            put_read_any(vectors, setting, draw_reserved(&vectors->draw, setting, why));
}

/* W3, W21, W23, W24: SLI conditionals with no bit of the mask, with one and with all. Below level 3 two whys
 * apply to them, and the first is said. */
static void put_read_conditionals(struct vectors *vectors, struct setting setting)
{
    uint32_t masks[] = {0, UINT32_C(1) << draw_below(&vectors->draw, 12), 0xfff};

    for (unsigned i = 0; i < sizeof masks / sizeof masks[0]; i++)
        put_read_any(vectors, setting, 0x00010000 | masks[i] << 4);
}

/* R22, W13: words at every setting, refused ones too. */
static void put_reads(struct vectors *vectors)
{
    for (unsigned i = 0; i < SETTINGS; i++) {
        put_read_numbers(vectors, setting_at(i));
        put_read_next(vectors, setting_at(i));
    }
    for (unsigned i = 0; i < GRID; i++)
        for (unsigned j = 0; j < PATTERNS; j++) {
            put_read_limits(vectors, setting_at(i), patterns[j]);
            put_read_neighbours(vectors, setting_at(i), patterns[j]);
        }
    for (unsigned i = 0; i < GRID; i++)
        if (is_accepted(setting_at(i))) {
            put_read_whys(vectors, setting_at(i), 20);
            put_read_conditionals(vectors, setting_at(i));
        }
    for (unsigned i = 0; i < 12900; i++) {
        struct setting setting = draw_setting(&vectors->draw);

        put_read_any(vectors, setting, draw_any(&vectors->draw));
    }
}

/* ---- READ_AT ---- */

enum { GIVEN = 4 };

/* Asks about a place of words of which these are the first. */
static void put_read_at_words(struct vectors *vectors, struct setting setting, uint32_t lent, uint64_t place,
                              const uint32_t *given)
{
    static uint32_t words[SIZE_LIMIT + 1];
    uint32_t record[15] = {setting.level, setting.mode,    setting.sli,
                           lent,          (uint32_t)place, (uint32_t)(place >> 32)};
    struct reading read;

    memcpy(words, given, GIVEN * sizeof words[0]);
    memcpy(record + 6, given, GIVEN * sizeof words[0]);
    read = model_read_at(setting, words, lent, place);
    record[10] = read.number;
    memcpy(record + 11, read.value, sizeof read.value);
    record[14] = read.why;
    put_record(vectors, READ_AT, record, sizeof record / sizeof record[0], read.number);
    count_why(vectors, READ_AT_WHY, read.why);
}

/* Words that aren't lent are drawn too: nothing may come of them. Half of all words are long forms, as they
 * alone look at the next word. */
static void draw_words(struct draw *draw, uint32_t *words)
{
    for (unsigned i = 0; i < GIVEN; i++) {
        bool is_long = draw_below(draw, 2) == 0;

        words[i] = is_long ? draw_form(draw, patterns[READING_LONG - 1]) : draw_any(draw);
    }
}

static void put_read_at(struct vectors *vectors, struct setting setting, uint32_t lent, uint64_t place)
{
    uint32_t words[GIVEN];

    draw_words(&vectors->draw, words);
    put_read_at_words(vectors, setting, lent, place, words);
}

/* W16, W24: for each why that the setting has, a word that is reserved for it at each of the first places,
 * which may be the last lent. */
static void put_read_at_whys(struct vectors *vectors, struct setting setting)
{
    struct draw *draw = &vectors->draw;

    for (unsigned i = 0; i < GIVEN * WHY_SLI; i++) {
        uint32_t place = i % GIVEN;
        uint32_t why = WHY_FORM + i / GIVEN;
        uint32_t words[GIVEN];

        if (!why_fits(setting, why))
            continue;
        draw_words(draw, words);
        words[place] = draw_reserved(draw, setting, why);
        put_read_at_words(vectors, setting, place + 1 + draw_below(draw, 2), place, words);
    }
}

/* W16: places near 0, near the end and far past it. Below two words those near the end wrap to far past. */
static void put_read_at_places(struct vectors *vectors, struct setting setting, uint32_t lent)
{
    uint64_t end = lent;
    uint64_t wide = UINT64_C(1) << 32;
    uint64_t top = UINT64_C(1) << 63;
    uint64_t places[] = {0, 1, 2, 3, end - 2, end - 1, end, end + 1, wide, wide + 1, top, UINT64_MAX};

    for (unsigned i = 0; i < sizeof places / sizeof places[0]; i++)
        put_read_at(vectors, setting, lent, places[i]);
}

/* R8, R23, W13, W16: words at places, with SIZE at every setting, and lengths around the largest. */
static void put_read_ats(struct vectors *vectors)
{
    static const uint32_t lents[] = {0, 1, 2, 3, 4, 5, 1000, SIZE_LIMIT - 1, SIZE_LIMIT, SIZE_LIMIT + 1};

    for (unsigned i = 0; i < SETTINGS; i++) {
        put_read_at(vectors, setting_at(i), 0, 0);
        put_read_at(vectors, setting_at(i), 3, draw_below(&vectors->draw, 4));
        put_read_at(vectors, setting_at(i), SIZE_LIMIT + 1, draw_below(&vectors->draw, 4));
    }
    for (unsigned i = 0; i < GRID; i++)
        if (is_accepted(setting_at(i))) {
            for (unsigned j = 0; j < sizeof lents / sizeof lents[0]; j++)
                put_read_at_places(vectors, setting_at(i), lents[j]);
            put_read_at_whys(vectors, setting_at(i));
        }
    for (unsigned i = 0; i < 400; i++) {
        struct setting setting = draw_setting(&vectors->draw);
        uint32_t lent = draw_below(&vectors->draw, 6);

        put_read_at(vectors, setting, lent, draw_below(&vectors->draw, 6));
    }
}

/* ---- WRITE ---- */

/* X4, X6: the why that FORM would have if the fields of a command fit. */
static uint32_t why_of_form(struct setting setting, struct reading command)
{
    uint32_t out[2];

    memset(command.value, 0, sizeof command.value);
    return model_write(setting, command, out, 2).why;
}

/* X6: the whys of FORM, those that were handed in and came to FORM, and those that FIELD kept back. */
static void count_written(struct vectors *vectors, struct setting setting, struct reading command,
                          struct written written)
{
    count_why(vectors, WRITE_WHY, written.why);
    if (written.refusal == REFUSAL_FORM)
        count_why(vectors, HANDED_WHY, command.why);
    if (written.refusal == REFUSAL_FIELD)
        count_why(vectors, FIELD_WHY, why_of_form(setting, command));
}

static void put_write(struct vectors *vectors, struct setting setting, struct reading command, uint32_t room)
{
    uint32_t out[4] = {0xa5a50000, 0xa5a50001, 0xa5a50002, 0xa5a50003};
    struct written written = model_write(setting, command, out, room);
    const uint32_t *value = command.value;
    uint32_t words[] = {setting.level, setting.mode, setting.sli, command.number,  value[0],      value[1],
                        value[2],      command.why,  room,        written.refusal, written.count, written.why,
                        out[0],        out[1],       out[2],      out[3]};

    put_record(vectors, WRITE, words, sizeof words / sizeof words[0], written.refusal);
    count_written(vectors, setting, command, written);
}

/* A field of a command, which takes multiples of the step below the limit. A limit of 0 says that there is
 * none. */
struct field {
    uint64_t limit;
    uint32_t step;
};

/* X4: the fields of each form. */
static const struct field fields[PATTERNS][3] = {
    {{0x800, 1}, {8, 1}, {0x2000, 4}},        /* increasing: count, subchannel, method */
    {{0x800, 1}, {8, 1}, {0x2000, 4}},        /* non-increasing */
    {{0x1000, 1}, {0, 0}, {0, 0}},            /* SLI conditional: mask */
    {{0, 0}, {0, 0}, {0, 0}},                 /* return */
    {{8, 1}, {0x2000, 4}, {0x1000000, 1}},    /* long: subchannel, method, count */
    {{0x20000000, 4}, {0, 0}, {0, 0}},        /* old jump: target */
    {{UINT64_C(1) << 32, 4}, {0, 0}, {0, 0}}, /* jump */
    {{UINT64_C(1) << 32, 4}, {0, 0}, {0, 0}}, /* call */
};

/* A command whose fields fit, drawn. */
static struct reading draw_command(struct draw *draw, uint32_t number)
{
    struct reading command = {number, {0, 0, 0}, WHY_NONE};

    for (unsigned i = 0; i < 3; i++) {
        struct field field = fields[number - 1][i];

        if (field.limit != 0)
            command.value[i] = (uint32_t)(draw_number(draw) % field.limit) / field.step * field.step;
    }
    return command;
}

/* Numbers at the limits of a field, one past, huge, and where multiples of 4 are asked for, others. */
static size_t field_numbers(struct field field, uint32_t numbers[12])
{
    uint32_t limit = (uint32_t)field.limit;
    size_t count = 0;

    numbers[count++] = 0;
    numbers[count++] = field.step;
    numbers[count++] = limit - field.step;
    numbers[count++] = limit;
    numbers[count++] = 0x80000000;
    numbers[count++] = UINT32_MAX;
    if (field.step == 4) {
        numbers[count++] = 1;
        numbers[count++] = 2;
        numbers[count++] = 3;
        numbers[count++] = limit - 1;
        numbers[count++] = limit - 2;
        numbers[count++] = limit + 2;
    }
    return count;
}

/* R10, X4: each field of a command at its limits, the others drawn; any room. */
static void put_write_limits(struct vectors *vectors, struct setting setting, uint32_t number)
{
    for (unsigned i = 0; i < 3; i++) {
        struct field field = fields[number - 1][i];
        uint32_t numbers[12];
        size_t count = field.limit == 0 ? 0 : field_numbers(field, numbers);

        for (size_t j = 0; j < count; j++) {
            struct reading command = draw_command(&vectors->draw, number);

            command.value[i] = numbers[j];
            put_write(vectors, setting, command, draw_below(&vectors->draw, 5));
        }
    }
}

/* R10, R24: a command with every field too wide, which is FIELD unless the setting is refused. */
static struct reading wide_command(uint32_t number)
{
    struct reading command = {number, {0, 0, 0}, WHY_NONE};

    for (unsigned i = 0; i < 3; i++)
        if (fields[number - 1][i].limit != 0)
            command.value[i] = UINT32_MAX;
    return command;
}

/* R12, X5, X6: what is no command, reserved words, whatever their why, and the refusals that reading can
 * give. */
static void put_write_others(struct vectors *vectors, struct setting setting)
{
    static const uint32_t refusals[] = {REFUSAL_LEVEL, REFUSAL_MODE, REFUSAL_SLI, REFUSAL_SIZE};
    uint32_t refusal = refusals[draw_below(&vectors->draw, 4)];
    uint32_t room = draw_below(&vectors->draw, 5);

    for (uint32_t why = WHY_FORM; why <= WHY_SLI; why++)
        put_write(vectors, setting, (struct reading){READING_RESERVED, {0, 0, 0}, why}, room);
    put_write(vectors, setting, (struct reading){READING_REFUSED, {refusal, 0, 0}, WHY_NONE}, room);
}

/* R11, R12, R31, W21, W22, W23, X1, X2, X4, X6: each command that fits with every room, and the limits once
 * more, with other numbers beside them: so FORM says why, and FIELD before it doesn't. */
static void put_writes_accepted(struct vectors *vectors, struct setting setting)
{
    for (uint32_t number = 1; number <= PATTERNS; number++) {
        for (uint32_t room = 0; room <= 4; room++)
            put_write(vectors, setting, draw_command(&vectors->draw, number), room);
        put_write_limits(vectors, setting, number);
    }
}

/* R24, X1, X4: commands at every setting. */
static void put_writes(struct vectors *vectors)
{
    for (unsigned i = 0; i < SETTINGS; i++) {
        put_write_others(vectors, setting_at(i));
        for (uint32_t number = 1; number <= PATTERNS; number++)
            put_write(vectors, setting_at(i), wide_command(number), draw_below(&vectors->draw, 5));
    }
    for (unsigned i = 0; i < GRID; i++)
        for (uint32_t number = 1; number <= PATTERNS; number++) {
            put_write_limits(vectors, setting_at(i), number);
            put_write(vectors, setting_at(i), draw_command(&vectors->draw, number), 2);
        }
    for (unsigned i = 0; i < GRID; i++)
        if (is_accepted(setting_at(i)))
            put_writes_accepted(vectors, setting_at(i));
}

/* ---- PRESENT ---- */

static void put_present(struct vectors *vectors, uint32_t level, uint32_t number)
{
    bool present = model_present(level, number);
    uint32_t words[] = {level, number, present};

    put_record(vectors, PRESENT, words, sizeof words / sizeof words[0], present);
}

/* W18: every number up to 0x110, so that those which are byte numbers of special methods are among them; then
 * larger ones, from 2^30 on such whose byte number has more than 32 bits: cut to 32, it would be that of a
 * special method, or of one that no level has. */
static void put_presents(struct vectors *vectors)
{
    static const uint32_t levels[] = {0, 1, 2, 3, 4, 5, 6, UINT32_MAX};
    static const uint32_t larger[] = {0x7ff,      0x800,      0x4000,     0x4014,     0x3fffffff, 0x40000000,
                                      0x40000001, 0x40000014, 0x80000004, 0xc0000020, UINT32_MAX};

    for (unsigned i = 0; i < sizeof levels / sizeof levels[0]; i++) {
        for (uint32_t number = 0; number <= 0x110; number++)
            put_present(vectors, levels[i], number);
        for (unsigned j = 0; j < sizeof larger / sizeof larger[0]; j++)
            put_present(vectors, levels[i], larger[j]);
    }
}

/* ---- The program ---- */

int main(int count, char **arguments)
{
    /* READ and READ_AT are counted by the reading's number, WRITE by the refusal's, PRESENT by 0 or 1.
     * READ_WHY and READ_AT_WHY by the why of a reserved word, LEVEL_FORM and MODE_FORM by the form of one
     * that is read and wrong by level or mode; WRITE_WHY by FORM's why, HANDED_WHY by the why that came in,
     * FIELD_WHY by the one that is not told, as FIELD comes before it. */
    static const char *const names[] = {"READ",      "READ_AT",     "WRITE",      "PRESENT",
                                        "READ_WHY",  "READ_AT_WHY", "LEVEL_FORM", "MODE_FORM",
                                        "WRITE_WHY", "HANDED_WHY",  "FIELD_WHY"};
    static struct vectors vectors = {.draw = {0x5eed}};

    if (!read_arguments(&vectors, count, arguments))
        return 2;
    put_reads(&vectors);
    put_read_ats(&vectors);
    put_writes(&vectors);
    put_presents(&vectors);
    if (vectors.counting)
        print_counts(&vectors, names, sizeof names / sizeof names[0]);
    return end_of_output();
}

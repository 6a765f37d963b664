#include "submission.h"

#include <stdio.h>
#include <string.h>

#include "program.h"

/* Digits alone: strtoul would take signs and spaces as well. */
static bool read_number(const char *text, uint32_t *number)
{
    uint64_t value = 0;

    if (*text == '\0')
        return false;
    for (; *text != '\0'; text++) {
        if (*text < '0' || *text > '9')
            return false;
        value = 10 * value + (uint64_t)(*text - '0');
        if (value > UINT32_MAX)
            return false;
    }
    *number = (uint32_t)value;
    return true;
}

bool read_setting(struct submission *submission, const char *level, const char *sli)
{
    if (!read_number(level, &submission->level))
        return fail_usage("LEVEL has to be a decimal number below 2^32");
    if (strcmp(sli, "0") != 0 && strcmp(sli, "1") != 0)
        return fail_usage("SLI has to be 0 or 1");
    submission->sli = sli[0] == '1';
    return true;
}

/* No more than one byte above the limit is read, so that a file without end has a verdict too. */
static bool read_file(struct lent *lent, const char *name)
{
    FILE *file = fopen(name, "rb");
    bool is_read;

    if (file == NULL) {
        complain(name);
        return false;
    }
    lent->length = fread(lent->bytes, 1, lent->limit + 1, file);
    is_read = !ferror(file);
    if (!is_read)
        complain(name);
    fclose(file);
    return is_read;
}

bool read_files(struct submission *submission, const char *words, const char *map, const char *permit)
{
    return read_file(&submission->words, words) && read_file(&submission->map, map) &&
           read_file(&submission->permit, permit);
}

uint32_t word_count(const struct submission *submission)
{
    return (uint32_t)(submission->words.length / 4);
}

uint32_t word_at(const struct submission *submission, uint32_t place)
{
    const uint8_t *bytes = submission->words.bytes + 4 * (size_t)place;

    return bytes[0] | (uint32_t)bytes[1] << 8 | (uint32_t)bytes[2] << 16 | (uint32_t)bytes[3] << 24;
}

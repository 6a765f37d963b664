/* A file that is written as a whole or not at all. */
#ifndef WHOLE_H
#define WHOLE_H

#include <stdbool.h>
#include <stddef.h>
#include <stdint.h>

/* An argument that names a file, and what the usage calls it. */
struct argument {
    const char *called;
    const char *name;
};

/* Whether a file may be written by this name: it is none of those that are read, by whatever name, and is a
 * regular file if it is there. Says what is wrong with it. */
bool may_be_written(struct argument written, const struct argument *read, size_t count);

/* Writes the bytes to a new file, and then puts that in the place of the named one, all at once: whoever
 * opens the name finds the old file, or the new one whole. Where anything fails, says so, and the old one
 * stays. */
bool write_whole(const char *name, const uint8_t *bytes, size_t length);

#endif

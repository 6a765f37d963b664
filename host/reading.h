/* What a word is, in words: as the library reads it, since a second reader could read it in another way. */
#ifndef READING_H
#define READING_H

#include <stdbool.h>

#include "submission.h"
#include "upborliya.h"

/* The word at a place, read as a command of an NV04-style channel. */
upborliya_reading reading_at(const struct submission *submission, uint32_t place);

/* Whether the library can have read it so. Any other reading would have to come from a wrong archive. */
bool is_reading_at(const struct submission *submission, uint32_t place);

/* Prints what the word at a place reads as, where the library can have read it so, without an end of line. */
void print_reading_at(const struct submission *submission, uint32_t place);

/* Prints why the word at a place, which is reserved, is no command there, and what it would take, without an
 * end of line. */
void print_why_at(const struct submission *submission, uint32_t place);

#endif

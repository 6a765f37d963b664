/* What the programs have in common as programs: their statuses, and what they say where something fails. */
#ifndef PROGRAM_H
#define PROGRAM_H

#include <stdbool.h>
#include <stddef.h>

/* The statuses; the help of each program says what it means by them. */
enum { ACCEPTED = 0, REFUSED = 1, REJECTED = 2, FAILED = 3 };

/* Each program has its own: the name under which it speaks, and how it is used. */
extern const char program_name[];
extern const char program_usage[];

/* Says on standard error what is wrong with a file, by errno. */
void complain(const char *name);

/* Says what is wrong with the arguments, and how the program is used. It is false, for whoever has to fail.
 */
bool fail_usage(const char *sentence);

/* The one argument --help. */
bool is_help(int argc, char **argv);

/* Prints a number of things, each called so. */
void print_count(size_t count, const char *thing);

/* Closes standard output. The status stays only if all that was printed was written. */
int finish(int status);

#endif

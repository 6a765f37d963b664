#include "program.h"

#include <errno.h>
#include <stdio.h>
#include <string.h>

void complain(const char *name)
{
    fprintf(stderr, "%s: %s: %s\n", program_name, name, strerror(errno));
}

bool fail_usage(const char *sentence)
{
    fprintf(stderr, "%s: %s\n%s", program_name, sentence, program_usage);
    return false;
}

bool is_help(int argc, char **argv)
{
    return argc == 2 && strcmp(argv[1], "--help") == 0;
}

void print_count(size_t count, const char *thing)
{
    printf("%zu %s%s", count, thing, count == 1 ? "" : "s");
}

/* A verdict that nobody could read is none. What is printed may first fail here, where it is written out. */
int finish(int status)
{
    bool is_written = !ferror(stdout);

    if (fclose(stdout) != 0)
        is_written = false;
    if (is_written)
        return status;
    complain("standard output");
    return FAILED;
}

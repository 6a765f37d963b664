#define _DEFAULT_SOURCE

#include "compare.h"

#include <signal.h>
#include <stdio.h>
#include <stdlib.h>
#include <string.h>
#include <sys/mman.h>
#include <sys/wait.h>
#include <unistd.h>

enum { MOST_LINES = 4096 };

/* ---- What is told ---- */

void check(bool good, const char *sentence)
{
    if (good)
        return;
    fprintf(stderr, "%s: failed: %s\n", comparison, sentence);
    exit(1);
}

void print_bytes(const char *name, const uint8_t *bytes, size_t length, size_t group)
{
    unsigned lines = 0;
    size_t next;

    fprintf(stderr, "%s, %zu bytes:\n", name, length);
    for (size_t at = 0; at < length && lines < MOST_LINES; at = next, lines++) {
        size_t size = length - at < group ? length - at : group;

        next = at + size;
        while (next + size <= length && memcmp(bytes + at, bytes + next, size) == 0)
            next += size;
        fprintf(stderr, "  %zu to %zu: 0x", at / group, (next - 1) / group);
        for (size_t i = size; i-- != 0;)
            fprintf(stderr, "%02x", bytes[at + i]);
        fputc('\n', stderr);
    }
    if (lines == MOST_LINES)
        fprintf(stderr, "  and so on\n");
}

/* ---- Lent memory ---- */

/* The statuses of a process that reads one byte. */
enum { READ = 0, FAULTED = 7 };

static void exit_at_fault(int number)
{
    (void)number;
    _exit(FAULTED);
}

/* Whether reading a byte raises SIGSEGV. It is tried in a process of its own, which takes the signal: if it
 * died of it, some machines would report a crash that is none. */
static bool faults(const volatile uint8_t *byte)
{
    int status = 0;
    pid_t child = fork();

    check(child >= 0, "a process is made");
    if (child == 0) {
        signal(SIGSEGV, exit_at_fault);
        (void)*byte;
        _exit(READ);
    }
    check(waitpid(child, &status, 0) == child, "the process ends");
    check(WIFEXITED(status) && (WEXITSTATUS(status) == READ || WEXITSTATUS(status) == FAULTED),
          "the process reads a byte or faults");
    return WEXITSTATUS(status) == FAULTED;
}

uint8_t *make_room(size_t length)
{
    size_t page = (size_t)sysconf(_SC_PAGESIZE);
    size_t readable = (length + MOST_GAP + page - 1) / page * page;
    uint8_t *room = mmap(NULL, readable + page, PROT_READ | PROT_WRITE, MAP_PRIVATE | MAP_ANONYMOUS, -1, 0);

    check(room != MAP_FAILED, "there is room");
    check(mprotect(room + readable, page, PROT_NONE) == 0, "a page is made unreadable");
    check(faults(room + readable), "reading past lent memory faults");
    check(!faults(room + readable - 1), "lent memory can be read");
    return room + readable;
}

uint8_t *lend(uint8_t *end, const uint8_t *bytes, size_t length, unsigned long turn)
{
    size_t gap = turn % 16 <= MOST_GAP ? turn % 16 : 0;

    if (length == 0 && turn % 2 == 0)
        return NULL;
    return memcpy(end - gap - length, bytes, length);
}

bool is_kept(const uint8_t *lent, const uint8_t *bytes, size_t length)
{
    return length == 0 || memcmp(lent, bytes, length) == 0;
}

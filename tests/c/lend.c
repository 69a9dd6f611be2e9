#define _DEFAULT_SOURCE
#include "lend.h"

#include <signal.h>
#include <stdio.h>
#include <stdlib.h>
#include <string.h>
#include <sys/mman.h>
#include <unistd.h>

enum { GUARD = 64 };

static size_t page(void)
{
    return (size_t)sysconf(_SC_PAGESIZE);
}

static void stop_if(bool failed)
{
    if (failed) {
        fprintf(stderr, "no memory to lend\n");
        exit(2);
    }
}

static void lend_heap(struct lent *lent, size_t guard)
{
    lent->block_bytes = lent->bytes + 2 * guard;
    lent->block = malloc(lent->block_bytes);
    stop_if(lent->block == NULL);
    lent->data = lent->block + guard;
}

/* Whole pages between two without access. */
static void lend_pages(struct lent *lent)
{
    lent->block_bytes = (lent->bytes + page() - 1) / page() * page();
    size_t whole = lent->block_bytes + 2 * page();
    uint8_t *map = mmap(NULL, whole, PROT_NONE, MAP_PRIVATE | MAP_ANONYMOUS, -1, 0);
    stop_if(map == MAP_FAILED);
    lent->block = map + page();
    if (lent->block_bytes > 0)
        stop_if(mprotect(lent->block, lent->block_bytes, PROT_READ | PROT_WRITE) != 0);
    size_t before = lent->how == PAGE_END ? lent->block_bytes - lent->bytes : 0;
    lent->data = lent->block + before;
}

struct lent lend(enum lending how, size_t bytes)
{
    struct lent lent = { .bytes = bytes, .how = how };
    if (how == EXACT || how == WORDS)
        lend_heap(&lent, how == WORDS ? GUARD : 0);
    else
        lend_pages(&lent);
    memset(lent.block, FILL, lent.block_bytes);
    return lent;
}

/* Where the slice has pages of its own. */
void forbid_writes(struct lent *lent)
{
    bool pages = lent->how == PAGE_END || lent->how == PAGE_START;
    if (pages && lent->block_bytes > 0)
        stop_if(mprotect(lent->block, lent->block_bytes, PROT_READ) != 0);
}

/* Whether all that lies in the block beside the slice is as before. */
bool guards_hold(const struct lent *lent)
{
    const uint8_t *start = lent->data, *end = start + lent->bytes;
    for (const uint8_t *at = lent->block; at < start; at++)
        if (*at != FILL)
            return false;
    for (const uint8_t *at = end; at < lent->block + lent->block_bytes; at++)
        if (*at != FILL)
            return false;
    return true;
}

void give_back(struct lent *lent)
{
    if (lent->how == EXACT || lent->how == WORDS)
        free(lent->block);
    else
        munmap(lent->block - page(), lent->block_bytes + 2 * page());
}

static const char **watched;

static void on_fault(int signal)
{
    static const char text[] = ": an access outside the slices\n";
    (void)signal;
    ssize_t written = write(STDERR_FILENO, *watched, strlen(*watched));
    written += write(STDERR_FILENO, text, sizeof text - 1);
    _exit(written > 0 ? 1 : 2);
}

void watch_access(const char **case_name)
{
    watched = case_name;
    signal(SIGSEGV, on_fault);
}

static const char *const LENDING_NAMES[LENDINGS] = { "exact", "words", "end", "start" };

bool check_lendings(int count, char **words, void (*check)(enum lending how))
{
    bool known = count == 1;
    for (int how = 0; how < LENDINGS; how++) {
        if (count > 1 && strcmp(words[1], LENDING_NAMES[how]) != 0)
            continue;
        known = true;
        check(how);
    }
    return known;
}

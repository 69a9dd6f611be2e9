/* Memory for one slice, lent in a way that shows accesses beside it. */
#ifndef LEND_H
#define LEND_H

#include <stdbool.h>
#include <stddef.h>
#include <stdint.h>

enum lending {
    EXACT,      /* a heap block of exactly its length, for the sanitizers and valgrind */
    WORDS,      /* between guard words that are looked at after the call */
    PAGE_END,   /* up to a page without access */
    PAGE_START, /* right behind a page without access */
    LENDINGS
};

/* What lent memory and guards hold before the call. */
enum { FILL = 0xAA };

struct lent {
    void *data;
    size_t bytes;
    enum lending how;
    uint8_t *block; /* what may be accessed, the slice and its guards */
    size_t block_bytes;
};

struct lent lend(enum lending how, size_t bytes);
void forbid_writes(struct lent *lent);
bool guards_hold(const struct lent *lent);
void give_back(struct lent *lent);

/* From here on the program ends with status 1 where a page without access is met, and names the
   case. */
void watch_access(const char **case_name);

/* Checks with each way of lending, or with the one that the command line names; false if it names
   none. */
bool check_lendings(int count, char **words, void (*check)(enum lending how));

#endif

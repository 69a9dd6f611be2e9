/* The lines and columns of offsets in a file, a row `OFFSET LINE COLUMN` for each: of those that
   are given, or else of every offset from 0 to the file's length.
   Exit status: 0, 2 if the file is too long, 3 if it is not read or the words are wrong. */
#include <errno.h>
#include <stdio.h>
#include <stdlib.h>
#include <string.h>

#include "masm_cst.h"

#define N MASM_MAX_SOURCE
static uint8_t source[N + 1]; /* one byte more than is allowed, so that a longer file is seen */
static uint32_t every[N + 1]; /* offsets 0 to N */

/* Whether a word is an offset: digits, and no more than 32 bits. */
static int read_offset(const char *word, uint32_t *offset)
{
    errno = 0;
    unsigned long long number = strtoull(word, NULL, 10);
    *offset = (uint32_t)number;
    return *word != '\0' && word[strspn(word, "0123456789")] == '\0' && errno == 0
        && number <= UINT32_MAX;
}

/* One call gives all lines and columns; 0 written of a file that is too long. */
static int print_lines(size_t length, const uint32_t *offsets, size_t count)
{
    uint32_t *lines = calloc(count, sizeof *lines), *columns = calloc(count, sizeof *columns);
    if (lines == NULL || columns == NULL) {
        perror("lines");
        return 3;
    }
    uint64_t written = masm_lines(source, length, offsets, count, lines, count, columns, count);
    for (size_t i = 0; i < written; i++)
        printf("%lu %lu %lu\n", (unsigned long)offsets[i], (unsigned long)lines[i],
               (unsigned long)columns[i]);
    free(lines);
    free(columns);
    if (written < count)
        fprintf(stderr, "lines: the file is longer than %u bytes\n", N);
    return written < count ? 2 : fflush(stdout) != 0 || ferror(stdout) ? 3 : 0;
}

/* Reads the words behind the file's name, if there are any; the exit status. */
static int print_given(size_t length, char **words, size_t count)
{
    uint32_t *offsets = calloc(count, sizeof *offsets);
    if (offsets == NULL) {
        perror("lines");
        return 3;
    }
    size_t good = 0;
    while (good < count && read_offset(words[good], &offsets[good]))
        good++;
    if (good < count)
        fprintf(stderr, "lines: an offset is a number up to %lu\n", (unsigned long)UINT32_MAX);
    int status = good < count ? 3 : print_lines(length, offsets, count);
    free(offsets);
    return status;
}

int main(int count, char **words)
{
    if (count < 2) {
        fputs("usage: lines FILE [OFFSET...]\n", stderr);
        return 3;
    }
    FILE *file = fopen(words[1], "rb");
    size_t length = file == NULL ? 0 : fread(source, 1, sizeof source, file);
    if (file == NULL || ferror(file)) {
        perror("lines");
        return 3;
    }
    if (count > 2)
        return print_given(length, words + 2, (size_t)count - 2);
    for (uint32_t i = 0; i <= N; i++)
        every[i] = i;
    return print_lines(length, every, length > N ? 1 : length + 1);
}

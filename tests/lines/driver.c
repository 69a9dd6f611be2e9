/* Answers questions to masm_lines on standard input, until it ends: the numbers of bytes and of
   offsets, 32 bits each, then the bytes and the offsets. An answer is how many were written, then the
   lines and the columns, as many as there are offsets. Numbers are in the machine's order. */
#include <stdio.h>
#include <stdlib.h>

#include "masm_cst.h"

static void stop_unless(int good)
{
    if (!good) {
        fputs("driver: input, output or memory is cut off\n", stderr);
        exit(2);
    }
}

static void *need(size_t count, size_t size)
{
    void *memory = calloc(count > 0 ? count : 1, size);
    stop_unless(memory != NULL);
    return memory;
}

static void answer(size_t length, size_t count)
{
    uint8_t *source = need(length, 1);
    uint32_t *offsets = need(count, sizeof *offsets);
    uint32_t *lines = need(count, sizeof *lines), *columns = need(count, sizeof *columns);
    stop_unless(fread(source, 1, length, stdin) == length);
    stop_unless(fread(offsets, sizeof *offsets, count, stdin) == count);
    uint32_t written = (uint32_t)masm_lines(source, length, offsets, count, lines, count, columns,
                                            count);
    stop_unless(fwrite(&written, sizeof written, 1, stdout) == 1);
    stop_unless(fwrite(lines, sizeof *lines, count, stdout) == count);
    stop_unless(fwrite(columns, sizeof *columns, count, stdout) == count);
    free(source);
    free(offsets);
    free(lines);
    free(columns);
}

int main(void)
{
    uint32_t sizes[2];
    while (fread(sizes, sizeof sizes, 1, stdin) == 1)
        answer(sizes[0], sizes[1]);
    stop_unless(fflush(stdout) == 0);
    return 0;
}

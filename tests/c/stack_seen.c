/* Stands in for the archive: prints at which limit an example reads, and on how large a stack. */
#define _GNU_SOURCE
#include <pthread.h>
#include <stdio.h>
#include <stdlib.h>

#include "masm_cst.h"

uint64_t masm_parse_text(uint64_t limit, const uint8_t *source, size_t source_len,
                         uint16_t *token_kinds, size_t token_kinds_len,
                         uint32_t *token_ends, size_t token_ends_len,
                         uint16_t *events, size_t events_len,
                         uint16_t *messages, size_t messages_len,
                         uint32_t *starts, size_t starts_len,
                         uint32_t *ends, size_t ends_len,
                         uint64_t *counts, size_t counts_len)
{
    pthread_attr_t attributes;
    size_t size = 0;
    if (pthread_getattr_np(pthread_self(), &attributes) != 0)
        exit(2);
    pthread_attr_getstacksize(&attributes, &size);
    pthread_attr_destroy(&attributes);
    printf("limit %u, stack %zu\n", (unsigned)limit, size);
    return MASM_ACCEPTED;
}

uint64_t masm_lines(const uint8_t *source, size_t source_len,
                    const uint32_t *offsets, size_t offsets_len,
                    uint32_t *lines, size_t lines_len,
                    uint32_t *columns, size_t columns_len)
{
    return 0;
}

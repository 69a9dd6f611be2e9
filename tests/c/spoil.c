#include "spoil.h"

#include <string.h>

void spoil(struct lent *lent, ptrdiff_t at)
{
    volatile uint8_t *bytes = lent->data;
    if (at < 0)
        at += (ptrdiff_t)lent->bytes;
    bytes[at] ^= 1;
}

bool spoil_slice(struct lent *slices, const char *const *names, size_t count, const char *fault)
{
    for (size_t i = 0; i < count; i++) {
        struct lent *slice = &slices[i];
        size_t length = strlen(names[i]);
        if (strncmp(fault, names[i], length) != 0 || slice->bytes == 0)
            continue;
        const char *where = fault + length;
        if (strcmp(where, "-first") == 0)
            spoil(slice, 0);
        else if (strcmp(where, "-last") == 0)
            spoil(slice, -1);
        else if (strcmp(where, "-behind") == 0)
            spoil(slice, (ptrdiff_t)slice->bytes);
        else if (strcmp(where, "-before") == 0)
            spoil(slice, -(ptrdiff_t)slice->bytes - 1);
        else
            continue;
        return true;
    }
    return false;
}

void read_behind(const struct lent *lent)
{
    volatile uint8_t byte = ((const volatile uint8_t *)lent->data)[lent->bytes];
    (void)byte;
}

/* Prints the names of masm_names.h as `number name`, and fails where a number that is no kind or
   status has a text. */
#include <stdbool.h>
#include <stdio.h>
#include <string.h>

#include "masm_names.h"

static bool empty(const char *text)
{
    return text[0] == '\0';
}

/* Whether a status's text names a number. */
static bool names(uint64_t status, unsigned number)
{
    char digits[16];
    snprintf(digits, sizeof digits, "%u", number);
    return strstr(masm_status_text(status), digits) != NULL;
}

/* Each status has a text, and no number beside them has. Two name the most that is allowed. */
static bool statuses_hold(void)
{
    static const uint64_t others[] = { 7, 8, 10, UINT64_C(1) << 32, UINT64_MAX };
    bool holds = names(MASM_TOO_LONG, MASM_MAX_SOURCE)
        && names(MASM_LIMIT_OUT_OF_RANGE, MASM_MAX_CONTROL_FLOW_NESTING);
    for (uint64_t status = MASM_ACCEPTED; status <= MASM_COUNTS_SHORT; status++)
        holds = holds && !empty(masm_status_text(status));
    holds = holds && !empty(masm_status_text(MASM_LIMIT_OUT_OF_RANGE));
    for (size_t i = 0; i < sizeof others / sizeof others[0]; i++)
        holds = holds && empty(masm_status_text(others[i]));
    return holds;
}

int main(void)
{
    for (uint16_t kind = 0; kind <= MASM_STAR; kind++)
        printf("%u %s\n", kind, masm_kind_name(kind));
    bool kinds_hold = strcmp(masm_kind_name(MASM_ERROR_TOKEN), "Error") == 0
        && empty(masm_kind_name(MASM_ERROR_TOKEN + 1)) && empty(masm_kind_name(UINT16_MAX));
    return kinds_hold && statuses_hold() ? 0 : 1;
}

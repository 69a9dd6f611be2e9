/* Prints the table of masm_messages.h, for a reading at the limit that the word says, as
   `number text`. */
#include <stdio.h>
#include <stdlib.h>

#include "masm_messages.h"

int main(int count, char **words)
{
    char text[MASM_MESSAGE_ROOM];
    uint64_t limit = count == 2 ? strtoull(words[1], NULL, 10) : 0;
    for (uint16_t number = 1; number <= MASM_MESSAGES; number++)
        printf("%u %s\n", number, masm_message(limit, number, text));
    return count == 2 ? 0 : 2;
}

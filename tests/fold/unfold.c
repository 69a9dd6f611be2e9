/* Reads what `fold FILE --open` printed and writes the source that it shows, byte for byte but for
   line ends, which are not shown: a LF is written for each, and behind the last row, be there one in
   the source or not. */
#include <stdbool.h>
#include <stdio.h>
#include <stdlib.h>
#include <string.h>

enum { SIGN = 22, TEXT = 24, LONGEST = 8192 };

/* Writes the byte that a piece of text shows; the piece's length. */
static size_t put_shown(const char *text)
{
    if (text[0] != '\\') {
        putchar(text[0]);
        return 1;
    }
    const char *at = strchr("\\\\t\t", text[1]);
    if (text[1] == 'x') {
        char digits[3] = { text[2], text[3], '\0' };
        putchar((int)strtoul(digits, NULL, 16));
        return 4;
    }
    putchar(at == NULL ? '?' : at[1]);
    return 2;
}

int main(void)
{
    char row[LONGEST];
    char before = '>';
    bool any = false;
    if (fgets(row, sizeof row, stdin) == NULL)
        return 2;
    while (fgets(row, sizeof row, stdin) != NULL && strlen(row) >= TEXT) {
        char sign = row[SIGN] == ':' ? before : row[SIGN];
        if (row[SIGN] == '|' && any)
            putchar('\n');
        before = sign;
        if (strncmp(row + TEXT, "lines: ", 7) == 0 && sign == '>')
            break;
        if (sign != '|')
            continue;
        row[strcspn(row, "\n")] = '\0';
        for (const char *text = row + TEXT; *text != '\0';)
            text += put_shown(text);
        any = true;
    }
    if (any)
        putchar('\n');
    return 0;
}

/* What the terminal can show: the width of a row, and whether letters outside ASCII are safe. */
#define _DEFAULT_SOURCE
#include <langinfo.h>
#include <locale.h>
#include <stdlib.h>
#include <string.h>
#include <sys/ioctl.h>
#include <unistd.h>

#include "fold.h"

enum { USUAL = 80 };

static size_t columns_variable(void)
{
    const char *text = getenv("COLUMNS");
    unsigned long number = text == NULL ? 0 : strtoul(text, NULL, 10);
    return number >= NARROWEST && number <= WIDEST ? number : USUAL;
}

/* The given width, the terminal's, that of COLUMNS, or 80. In a terminal that is narrower than the
   rows, text could look like a row: the width is then 0. */
size_t find_width(size_t given)
{
    struct winsize size = { 0 };
    if (given > 0)
        return given;
    if (ioctl(STDOUT_FILENO, TIOCGWINSZ, &size) != 0 || size.ws_col == 0)
        return columns_variable();
    if (size.ws_col < NARROWEST)
        return 0;
    return size.ws_col < WIDEST ? size.ws_col : WIDEST;
}

/* Whether letters may be shown as UTF-8. In a terminal of another character set their bytes could
   be control characters. */
bool takes_utf8(void)
{
    if (!isatty(STDOUT_FILENO) && !isatty(STDERR_FILENO))
        return true;
    setlocale(LC_CTYPE, "");
    return strcmp(nl_langinfo(CODESET), "UTF-8") == 0;
}

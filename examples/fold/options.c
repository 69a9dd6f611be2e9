/* The words of the command line. Options stand in any place; behind `--` there are none. */
#include <stdlib.h>
#include <string.h>

#include "fold.h"

const char HELP[] =
    "usage: fold [--open] [--ascii] [--width N] [--limit N] FILE [NAME...]\n"
    "\n"
    "Shows a Miden Assembly script of up to 1048576 bytes; FILE is - for standard\n"
    "input. All lines are shown but those in the blocks of procedures and `begin`\n"
    "blocks, which are folded: the fold's row says which lines lie in it, how many,\n"
    "with how many comments, and how deep blocks lie. A block that ends in the line\n"
    "of its header is shown, and so are those of the procedures that are NAMEd\n"
    "(`begin` for `begin` blocks). Lines of blanks alone have no row.\n"
    "\n"
    "  !  a diagnostic belongs to this row, or it is `unread`: text that is no item\n"
    "  ?  an item is still open at its end, or runs over lines that look like others\n"
    "  |  text of the script stands behind it      >  words of fold's own\n"
    "  :  the row above goes on\n"
    "\n"
    "--open     all lines with the depth of their blocks; in a line with + blocks\n"
    "           open, with - some close, with * both\n"
    "--ascii    escapes every character outside ASCII; so it is in a terminal whose\n"
    "           locale is not UTF-8\n"
    "--width N  columns of a row, 40 to 1000; else the terminal's, COLUMNS, or 80\n"
    "--limit N  how deep control flow is read, 1 to 256; else 256, as the unit reads.\n"
    "           What lies deeper, and all behind it, is `unread`\n"
    "\n"
    "A backslash is shown as \\\\. What is invisible or moves the text beside it\n"
    "(controls, marks, right-to-left letters, format characters) is shown as \\t, \\r\n"
    "or by its bytes, \\xNN. In a script CR LF, a CR alone and LF each end a line,\n"
    "in quotes too, and are not shown. At most 100 diagnostics are listed.\n"
    "\n"
    "No diagnostic does not mean a valid script: the reader folds, it does not check.\n"
    "Exit status: 0 without diagnostics, 1 with some, 2 if the script is refused,\n"
    "3 if it could not be read or shown or the command line is wrong.\n";

/* Whether a text is a number from `least` to `most`, with zeros before it or without. */
static bool read_number(const char *text, size_t least, size_t most, size_t *number)
{
    size_t digits = text == NULL ? 0 : strspn(text, "0123456789");
    *number = 0;
    for (size_t i = 0; i < digits && *number <= most; i++)
        *number = 10 * *number + (size_t)(text[i] - '0');
    return digits > 0 && text[digits] == '\0' && *number >= least && *number <= most;
}

static bool take_width(struct options *o, const char *text)
{
    if (read_number(text, NARROWEST, WIDEST, &o->width))
        return true;
    complain("--width", "needs a number of columns from 40 to 1000");
    return false;
}

static bool take_limit(struct options *o, const char *text)
{
    if (read_number(text, 1, MASM_MAX_CONTROL_FLOW_NESTING, &o->limit))
        return true;
    complain("--limit", "needs a depth from 1 to 256");
    return false;
}

static bool take_option(struct options *o, const char *word)
{
    if (strcmp(word, "-h") == 0 || strcmp(word, "--help") == 0)
        o->help = true;
    else if (strcmp(word, "--open") == 0)
        o->open = true;
    else if (strcmp(word, "--ascii") == 0)
        o->ascii = true;
    else if (strncmp(word, "--width=", 8) == 0)
        return take_width(o, word + 8);
    else if (strncmp(word, "--limit=", 8) == 0)
        return take_limit(o, word + 8);
    else {
        complain(word, "no such option; fold --help names them");
        return false;
    }
    return true;
}

static void take_operand(struct options *o, const char *word)
{
    if (o->file == NULL)
        o->file = word;
    else
        o->names[o->name_count++] = word;
}

static bool is_whole(const struct options *o)
{
    if (o->help)
        return true;
    if (o->file == NULL)
        complain("FILE", "is missing; fold --help says how to call it");
    else if (o->open && o->name_count > 0)
        complain(o->names[0], "--open shows all items, it takes no NAME");
    return o->file != NULL && (!o->open || o->name_count == 0);
}

/* False where the words are wrong, which has been said then. */
bool read_options(struct options *o, int count, char **words)
{
    bool ended = false;
    o->limit = MASM_MAX_CONTROL_FLOW_NESTING;
    o->names = need((size_t)count, sizeof *o->names);
    for (int i = 1; i < count; i++) {
        const char *word = words[i];
        bool taken = true;
        if (ended || word[0] != '-' || word[1] == '\0')
            take_operand(o, word);
        else if (strcmp(word, "--") == 0)
            ended = true;
        else if (strcmp(word, "--width") == 0)
            taken = take_width(o, words[++i]);
        else if (strcmp(word, "--limit") == 0)
            taken = take_limit(o, words[++i]);
        else
            taken = take_option(o, word);
        if (!taken)
            return false;
    }
    return is_whole(o);
}

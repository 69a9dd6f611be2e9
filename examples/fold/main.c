/* Shows a Miden Assembly script folded by procedures and blocks, or unfolded with their depth. */
#define _POSIX_C_SOURCE 200809L
#include <signal.h>
#include <stdio.h>
#include <stdlib.h>
#include <string.h>

#include "fold.h"

/* Shows what was read; the exit status. */
static int show(struct reading *r, const struct options *o)
{
    uint64_t status = parse(r, o->limit);
    if (status != MASM_ACCEPTED) {
        show_refusal(r, status);
        return REFUSED;
    }
    struct survey s = { 0 };
    make_survey(r, &s);
    bool found = find_names(r, &s, o);
    if (found) {
        mark_reports(r, &s);
        if (o->open)
            show_open(r, &s);
        else
            show_folded(r, &s, o);
        show_diagnostics(r);
    }
    free(s.facts);
    free(s.items);
    if (!found)
        return FAILED;
    return r->diagnostics > 0 ? DIAGNOSED : CLEAN;
}

static int show_file(const struct options *o)
{
    struct reading r = { 0 };
    int error = read_source(&r, o->file);
    int result = FAILED;
    if (error == 0)
        result = show(&r, o);
    else
        complain(r.name, strerror(error));
    release(&r);
    return result;
}

static int run(const struct options *o)
{
    if (o->help) {
        fputs(HELP, stdout);
        return CLEAN;
    }
    if (o->ascii)
        show_ascii_only();
    size_t width = find_width(o->width);
    if (width == 0) {
        complain("standard output", "the terminal has less than 40 columns");
        return FAILED;
    }
    set_width(width);
    return show_file(o);
}

int main(int count, char **words)
{
    struct options o = { 0 };
    /* A reader that goes away is an error like any other. */
    signal(SIGPIPE, SIG_IGN);
    if (!takes_utf8())
        show_ascii_only();
    size_t width = find_width(0);
    set_width(width > 0 ? width : NARROWEST);
    int result = read_options(&o, count, words) ? run(&o) : FAILED;
    free(o.names);
    return finish_output() ? result : FAILED;
}

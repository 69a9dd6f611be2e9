/* Which items the command line names: procedures by their name, `begin` blocks by their word. */
#include <string.h>

#include "fold.h"

/* Whether a procedure's name is this one; a quoted name may be given without its quotes. */
static bool has_name(const struct reading *r, const struct item *item, const char *name)
{
    if (item->kind == MASM_BEGIN_BLOCK)
        return strcmp(name, "begin") == 0;
    if (item->kind != MASM_PROCEDURE || item->name == NONE)
        return false;
    size_t start = token_start(r, item->name), end = r->token_ends[item->name];
    size_t length = strlen(name);
    bool quoted = r->token_kinds[item->name] == MASM_QUOTED_IDENT;
    if (quoted && length == end - start - 2 && memcmp(r->source + start + 1, name, length) == 0)
        return true;
    return is_text(r, item->name, name);
}

bool is_named(const struct reading *r, const struct item *item, const struct options *o)
{
    for (size_t i = 0; i < o->name_count; i++)
        if (has_name(r, item, o->names[i]))
            return true;
    return false;
}

/* Whether there is an item for every name; else says which one has none. */
bool find_names(const struct reading *r, const struct survey *s, const struct options *o)
{
    for (size_t i = 0; i < o->name_count; i++) {
        size_t item = 0;
        while (item < s->item_count && !has_name(r, &s->items[item], o->names[i]))
            item++;
        if (item == s->item_count) {
            complain(o->names[i], "no procedure of this name is in the script");
            return false;
        }
    }
    return true;
}

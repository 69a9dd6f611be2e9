#include "nests.h"

#include <stdio.h>
#include <string.h>

#include "nesting_limits.h"
#include "masm_messages.h"
#include "rooms.h"

/* A control-flow node: its header, the word between an empty block and the one that nests, the word
   between that and an empty one, and the message where the file ends in the one that nests. */
struct form {
    const char *name;
    uint32_t node;
    const char *header, *before, *after;
    uint32_t missing;
};

static const struct form FORMS[] = {
    { "if", MASM_IF_OP, "if", NULL, NULL, 3 },
    { "else", MASM_IF_OP, "if", "else", NULL, 3 },
    { "while", MASM_WHILE_OP, "while.x", NULL, NULL, 4 },
    { "do", MASM_DO_WHILE_OP, "do", NULL, "while", 5 },
    { "do while", MASM_DO_WHILE_OP, "do", "while", NULL, 6 },
    { "repeat", MASM_REPEAT_OP, "repeat.2", NULL, NULL, 7 },
};
enum { FORM_COUNT = sizeof FORMS / sizeof *FORMS, MOST = 16 * (MASM_MAX_CONTROL_FLOW_NESTING + 1) };

/* Which nodes stand how deep, FORM_COUNT being all by turns, and whether the file ends in the
   innermost. */
struct nest {
    size_t form, depth;
    bool cut;
};

/* A nest under way, as it is read at a limit. */
struct build {
    struct nest nest;
    uint64_t limit;
    size_t length, tokens, events, open;
    bool unread, ended; /* in the Error node to the end; behind the end of a file that is cut */
    uint32_t message, start, end;
};

static uint8_t source[MOST];
static uint32_t kinds[MOST], ends[MOST], events[MOST];
static char name[64];

static void open_node(struct build *b, uint32_t kind)
{
    if (b->unread || b->ended)
        return;
    events[b->events++] = kind;
    b->open++;
}

static void close_node(struct build *b)
{
    if (b->unread || b->ended)
        return;
    events[b->events++] = MASM_CLOSE;
    b->open--;
}

static void put_token(struct build *b, uint32_t kind, const char *text, size_t length)
{
    if (b->ended)
        return;
    memcpy(source + b->length, text, length);
    b->length += length;
    ends[b->tokens] = (uint32_t)b->length;
    kinds[b->tokens++] = events[b->events++] = kind;
}

static void put_space(struct build *b)
{
    put_token(b, MASM_WHITESPACE, " ", 1);
}

/* A word, with a suffix of one letter or digit if it has one. */
static void put_word(struct build *b, const char *text)
{
    size_t length = strcspn(text, ".");
    put_token(b, MASM_IDENT, text, length);
    if (text[length] == '\0')
        return;
    put_token(b, MASM_DOT, ".", 1);
    put_token(b, text[length + 1] == '2' ? MASM_NUMBER : MASM_IDENT, text + length + 1, 1);
}

static void put_empty_block(struct build *b)
{
    put_space(b);
    open_node(b, MASM_BLOCK);
    close_node(b);
}

static void report(struct build *b, uint32_t message, size_t start, size_t end)
{
    b->message = message;
    b->start = (uint32_t)start;
    b->end = (uint32_t)end;
}

/* Up to the word before the block that nests. */
static void begin_form(struct build *b, const struct form *form, size_t level)
{
    if (level == b->limit + 1) {
        open_node(b, MASM_ERROR);
        b->unread = true;
        report(b, MASM_NESTING_TOO_DEEP, b->length, b->length + strcspn(form->header, "."));
    }
    open_node(b, form->node);
    put_word(b, form->header);
    if (form->before != NULL) {
        put_empty_block(b);
        put_word(b, form->before);
    }
}

static void end_form(struct build *b, const struct form *form)
{
    if (form->after != NULL) {
        put_word(b, form->after);
        put_empty_block(b);
    }
    put_word(b, "end");
    close_node(b);
}

/* The file ends here, at its last character, where a block begins. */
static void end_file(struct build *b, uint32_t missing)
{
    open_node(b, MASM_BLOCK);
    if (!b->unread)
        report(b, missing, b->length - 1, b->length - 1);
    b->ended = true;
}

static void put_instruction(struct build *b)
{
    open_node(b, MASM_INSTRUCTION);
    put_word(b, "add");
    close_node(b);
}

static void put_form(struct build *b, size_t level)
{
    const struct nest *nest = &b->nest;
    const struct form *form = &FORMS[nest->form < FORM_COUNT ? nest->form : level % FORM_COUNT];
    begin_form(b, form, level);
    if (nest->cut && level == nest->depth)
        end_file(b, form->missing);
    put_space(b);
    open_node(b, MASM_BLOCK);
    if (level < nest->depth)
        put_form(b, level + 1);
    else
        put_instruction(b);
    put_space(b);
    close_node(b);
    end_form(b, form);
}

static struct build build_nest(const struct nest *nest, uint64_t limit)
{
    struct build b = { .nest = *nest, .limit = limit };
    open_node(&b, MASM_SOURCE_FILE);
    open_node(&b, MASM_BEGIN_BLOCK);
    put_word(&b, "begin");
    put_space(&b);
    open_node(&b, MASM_BLOCK);
    put_form(&b, 1);
    put_space(&b);
    close_node(&b);
    put_word(&b, "end");
    while (b.open > 0) {
        events[b.events++] = MASM_CLOSE;
        b.open--;
    }
    return b;
}

static void check_nest(enum lending how, const struct nest *nest, uint64_t limit)
{
    struct build b = build_nest(nest, limit);
    size_t reports = b.message == 0 ? 0 : 1;
    struct full full = { .token_kinds = { kinds, b.tokens }, .token_ends = { ends, b.tokens },
                         .events = { events, b.events },     .messages = { &b.message, reports },
                         .starts = { &b.start, reports },    .ends = { &b.end, reports } };
    snprintf(name, sizeof name, "%s %zu at %u%s",
             nest->form < FORM_COUNT ? FORMS[nest->form].name : "all", nest->depth, (unsigned)limit,
             nest->cut ? ", cut" : "");
    case_name = name;
    /* Of the macro, as in check_call, which holds the call's events to these. */
    bool full_depth = nest->depth == limit && !nest->cut;
    if ((full_depth || nest->depth > limit) && most_open(full.events) != MASM_MAX_OPEN(limit))
        fail("greatest number of open nodes");
    check_few_rooms(how, &(struct question){ limit, source, b.length }, &full);
}

/* One node too deep at a limit, and as deep as it allows, there and at every larger one. */
static void check_depths(enum lending how, size_t form, size_t i, bool cut)
{
    size_t depth = (size_t)LIMITS[i];
    check_nest(how, &(struct nest){ form, depth + 1, cut }, LIMITS[i]);
    for (size_t larger = i; larger < LIMIT_COUNT; larger++)
        check_nest(how, &(struct nest){ form, depth, cut }, LIMITS[larger]);
}

/* The forms by turns at the limits between. */
static void check_every_limit(enum lending how)
{
    for (size_t depth = 1; depth <= MASM_MAX_CONTROL_FLOW_NESTING; depth++) {
        check_nest(how, &(struct nest){ FORM_COUNT, depth, false }, depth);
        check_nest(how, &(struct nest){ FORM_COUNT, depth + 1, false }, depth);
    }
}

void check_nests(enum lending how)
{
    check_every_limit(how);
    for (size_t i = 0; i < LIMIT_COUNT * (FORM_COUNT + 1); i++) {
        check_depths(how, i / LIMIT_COUNT, i % LIMIT_COUNT, false);
        check_depths(how, i / LIMIT_COUNT, i % LIMIT_COUNT, true);
    }
}

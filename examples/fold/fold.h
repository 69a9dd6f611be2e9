/* What the files of `fold` share. */
#ifndef FOLD_H
#define FOLD_H

#include <stdbool.h>
#include <stddef.h>
#include <stdint.h>

#include "masm_cst.h"

/* Exit statuses. */
enum { CLEAN = 0, DIAGNOSED = 1, REFUSED = 2, FAILED = 3 };

/* options.c: the words of the command line. */
enum { NARROWEST = 40, WIDEST = 1000 };
struct options {
    bool help, open, ascii;
    size_t width; /* 0 where none is given */
    size_t limit;
    const char *file;
    const char **names;
    size_t name_count;
};
bool read_options(struct options *options, int count, char **words);
extern const char HELP[];

/* terminal.c */
size_t find_width(size_t given);
bool takes_utf8(void);

/* letters.c: a character as it is shown, or one byte escaped. */
struct unit {
    size_t taken; /* bytes of the source */
    char text[5];
    size_t length;    /* bytes of the text */
    unsigned columns; /* at most, for wrapping */
    unsigned usual;   /* in most terminals, for carets */
};
struct unit next_unit(const uint8_t *bytes, size_t length);
void show_ascii_only(void);

/* rows.c: every line of output. It starts with a left part, a sign that tells whose words follow,
   and is wrapped. `|` stands before text from outside, `>` before words of fold's own. */
enum { LEFT = 21, AROUND = LEFT + 3 };
void set_width(size_t width);
size_t text_width(void);
void start_row(char sign, const char *left, ...);
void put_text(const uint8_t *bytes, size_t length);
void put_words(const char *format, ...);
void end_row(void);
void show_title(const char *left, const char *name);
void complain(const char *outside, const char *words);
bool finish_output(void);

/* A source, the line and column of each offset up to its length, and what the call gave of it at a
   limit. */
struct reading {
    const char *name;
    size_t limit;
    uint8_t *source;
    size_t length;
    uint32_t *lines;
    uint32_t *columns;
    uint16_t *token_kinds;
    uint32_t *token_ends;
    size_t tokens;
    uint16_t *events;
    size_t event_count;
    uint16_t *messages;
    uint32_t *starts;
    uint32_t *ends;
    size_t diagnostics;
    uint64_t counts[MASM_COUNTS];
};

/* source.c */
void *need(size_t count, size_t size);
int read_source(struct reading *r, const char *name);
void release(struct reading *r);
size_t line_of(const struct reading *r, size_t offset);
size_t column_of(const struct reading *r, size_t offset);
bool starts_line(const struct reading *r, size_t offset);
size_t line_start(const struct reading *r, size_t offset);
size_t line_end(const struct reading *r, size_t from, size_t end);
size_t text_end(const struct reading *r, size_t from, size_t to);
size_t line_count(const struct reading *r);

/* tokens.c */
uint64_t parse(struct reading *r, size_t limit);
size_t token_start(const struct reading *r, size_t token);
size_t token_at(const struct reading *r, size_t offset);
size_t first_line(const struct reading *r, size_t token);
size_t last_line(const struct reading *r, size_t token);
bool is_blank(uint16_t kind);
bool is_comment(uint16_t kind);
bool is_text(const struct reading *r, size_t token, const char *text);

/* survey.c: what the tree says of each token and of each item, in one walk. */
enum flag {
    STARTS = 1,    /* the first of a child of the root */
    OPENS = 2,     /* blocks opened before it */
    CLOSES = 4,    /* blocks closed before it, or behind it at the end of the file */
    UNREAD = 8,    /* in an Error node, or of kind Error */
    PROPER = 16,   /* starts an attribute or a visibility, or is its item's keyword */
    REPORTED = 32, /* a diagnostic belongs to it */
    DOUBTFUL = 64, /* its line begins as an item does */
    FOLDED = 128
};
struct fact {
    uint8_t label; /* a kind: of its item, of an attribute, of a comment or of an error */
    uint8_t flags;
    uint16_t depth; /* blocks that are open around it */
};

#define NONE UINT32_MAX

/* A child of the root that is a node. */
struct item {
    uint16_t kind;
    uint16_t depth; /* the most blocks open together in it */
    uint32_t token, token_end;
    uint32_t head;    /* the token at which its messages stand */
    uint32_t keyword;
    uint32_t name;    /* of a procedure */
    uint32_t block;   /* the first token at or behind its block */
};
struct survey {
    struct fact *facts;
    struct item *items;
    size_t item_count;
    size_t read_end; /* the token from which on nothing was read: blocks lie too deep */
};
void make_survey(const struct reading *r, struct survey *s);
const char *label_of(uint16_t kind);

/* marks.c: sets REPORTED. */
void mark_reports(const struct reading *r, struct survey *s);

/* doubts.c: sets DOUBTFUL in an item, and says in rows what is doubtful about it. */
void show_doubts(const struct reading *r, struct survey *s, const struct item *item);
void show_limit(const struct reading *r, const struct survey *s);

/* names.c: which items are named. */
bool is_named(const struct reading *r, const struct item *item, const struct options *o);
bool find_names(const struct reading *r, const struct survey *s, const struct options *o);

/* folded.c, open.c and diagnostics.c */
void show_folded(const struct reading *r, struct survey *s, const struct options *o);
void show_open(const struct reading *r, struct survey *s);
void show_diagnostics(const struct reading *r);
void show_refusal(const struct reading *r, uint64_t status);

#endif

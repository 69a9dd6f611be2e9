/* The reader of Miden Assembly scripts, and the lines and columns of places in them: two calls, no
   heap, nothing kept after them.

   No diagnostic does not mean a valid script. The reader finds items, blocks and instructions by
   their shape, to fold them; it checks no instruction, name, type or number of operands. After
   `const FEE = 10 * (2 + 3` all the rest of a file is the constant's, with no diagnostic.

   tools/archive writes the archive to link, target/staticlib/libmasm.a. It has these calls and no
   other name, and needs nothing but `memset`.

   masm_names.h names kinds and statuses, masm_messages.h has the texts of the diagnostics, and
   docs/TREE.md says what stands under each node. examples/read.c is a program to start from,
   examples/preview.c reads on a small stack, and examples/lines.c shows the second call. */
#ifndef MASM_CST_H
#define MASM_CST_H

#include <stddef.h>
#include <stdint.h>

#ifdef __cplusplus
extern "C" {
#endif

/* The longest source, in bytes. */
#define MASM_MAX_SOURCE 1048576u

/* The unit's limit on control-flow nodes in each other, and the largest. */
#define MASM_MAX_CONTROL_FLOW_NESTING 256u

/* The most nodes that are open together in a reading at a limit. */
#define MASM_MAX_OPEN(limit) (2 * MASM_SIZE(limit) + 4)

/* The stack that a reading at a limit takes, in bytes: measured (tests/c/stack_test.c), not proved.
   MASM_STACK(1) is enough for masm_lines. */
#define MASM_STACK(limit) (256 * MASM_SIZE(limit) + 16384)

/* Lengths of slices that suffice for every source of up to n bytes. None is 0, so that for an empty
   source too malloc, or a vector's data(), gives a pointer that is not null. Above MASM_MAX_SOURCE
   a source is refused, whatever the rooms. Each macro here evaluates n, or the limit, once. */
#define MASM_SOURCE_ROOM(n) (MASM_SIZE(n) + 1)
#define MASM_TOKEN_ROOM(n) (MASM_SIZE(n) + 1)
#define MASM_EVENT_ROOM(n) (7 * MASM_SIZE(n) + 2)
#define MASM_DIAGNOSTIC_ROOM(n) (2 * MASM_SIZE(n) + 1)
#define MASM_COUNTS 3

#ifdef __cplusplus
#define MASM_SIZE(n) static_cast<size_t>(n)
#else
#define MASM_SIZE(n) ((size_t)(n))
#endif

/* What the call returns: what is then in counts[0], [1] and [2], when, and what is written to the
   other slices. All else is as it was before. Checked in the order 6, 9, 1, 2, 3, 4, 5. */
enum masm_status {
    MASM_ACCEPTED = 0,     /* T, E, D, the numbers of tokens, events and diagnostics; all of them */
    MASM_TOO_LONG = 1,     /* 0, 0, 0: over MASM_MAX_SOURCE bytes; nothing */
    MASM_NOT_UTF8 = 2,     /* offset, length, 0: where the longest well-formed start ends, and how
                              many bytes are wrong there, or MASM_CUT_OFF; nothing */
    MASM_TOKEN_SHORT = 3,  /* T, 0, 0: more tokens than fit; the first that fit */
    MASM_UNWANTED = 4,     /* offset, 0, 0: of the first `use` or `extern`; all tokens */
    MASM_OUTPUT_SHORT = 5, /* T, E, D: more events or diagnostics than fit; all tokens, and the
                              first events and diagnostics that fit */
    MASM_COUNTS_SHORT = 6, /* nothing, counts too: it is shorter than MASM_COUNTS */
    MASM_LIMIT_OUT_OF_RANGE = 9 /* 0, 0, 0: the limit is 0, or above
                                   MASM_MAX_CONTROL_FLOW_NESTING; nothing */
};

/* In counts[1] behind MASM_NOT_UTF8: the source ends in the middle of a character, as when its
   transfer breaks off, and more bytes could make it well formed. Otherwise no bytes behind it could:
   1, 2 or 3 bytes from the offset on are wrong together, the longest start of a character that
   stands there, or the one byte that starts none. */
#define MASM_CUT_OFF 0u

/* Kinds. 1 to 26 are nodes, 27 to 59 tokens; a token may also be of kind MASM_ERROR. */
enum masm_kind {
    MASM_TOMBSTONE = 0,
    MASM_ERROR = 1,
    MASM_SOURCE_FILE = 2,
    MASM_DOC = 3,
    MASM_NAMESPACE = 4,
    MASM_EXTERN_PACKAGE = 5,
    MASM_SUBMODULE = 6,
    MASM_IMPORT = 7,
    MASM_IMPORT_LIST = 8,
    MASM_IMPORT_SPECIFIER = 9,
    MASM_CONSTANT = 10,
    MASM_TYPE_DECL = 11,
    MASM_ADVICE_MAP = 12,
    MASM_BEGIN_BLOCK = 13,
    MASM_PROCEDURE = 14,
    MASM_ATTRIBUTE = 15,
    MASM_VISIBILITY = 16,
    MASM_SIGNATURE = 17,
    MASM_BLOCK = 18,
    MASM_IF_OP = 19,
    MASM_WHILE_OP = 20,
    MASM_DO_WHILE_OP = 21,
    MASM_REPEAT_OP = 22,
    MASM_INSTRUCTION = 23,
    MASM_PATH = 24,
    MASM_EXPR = 25,
    MASM_TYPE_BODY = 26,

    MASM_WHITESPACE = 27,
    MASM_NEWLINE = 28,
    MASM_COMMENT = 29,
    MASM_DOC_COMMENT = 30,
    MASM_IDENT = 31,
    MASM_SPECIAL_IDENT = 32,
    MASM_NUMBER = 33,
    MASM_QUOTED_IDENT = 34,
    MASM_QUOTED_STRING = 35,
    MASM_AT = 36,
    MASM_BANG = 37,
    MASM_COLON = 38,
    MASM_COLON_COLON = 39,
    MASM_COMMA = 40,
    MASM_DOT = 41,
    MASM_DOT_DOT = 42,
    MASM_DOT_DOT_DOT = 43,
    MASM_EQUAL = 44,
    MASM_L_ANGLE = 45,
    MASM_L_BRACE = 46,
    MASM_L_BRACKET = 47,
    MASM_L_PAREN = 48,
    MASM_MINUS = 49,
    MASM_PLUS = 50,
    MASM_R_ANGLE = 51,
    MASM_R_ARROW = 52,
    MASM_R_BRACE = 53,
    MASM_R_BRACKET = 54,
    MASM_R_PAREN = 55,
    MASM_SEMICOLON = 56,
    MASM_SLASH = 57,
    MASM_SLASH_SLASH = 58,
    MASM_STAR = 59
};

/* An event is the kind of the node that it opens, the kind of the next token, or one of these. */
#define MASM_CLOSE 0u        /* closes the node opened last */
#define MASM_ERROR_TOKEN 60u /* the next token, of kind MASM_ERROR */

/* Reads `source`. Each slice is a pointer and a length in elements.

   limit: the most control-flow nodes (MASM_IF_OP to MASM_REPEAT_OP) in each other. Where one more
   begins, the rest of the file is one MASM_ERROR node with message MASM_NESTING_TOO_DEEP
   (masm_messages.h), and no missing `end` is reported. The unit passes
   MASM_MAX_CONTROL_FLOW_NESTING, a service with small stacks a smaller limit. A file without that
   message at a limit reads the same at every larger one. Files to be joined and the whole are read
   at one limit.
   token_kinds, token_ends: a token's kind and the offset behind its last byte; it starts where the
   one before ended. The room for tokens is the shorter length.
   events: the tree from its root, a MASM_SOURCE_FILE; the tokens in it are all tokens in order.
   messages, starts, ends: a diagnostic's number (masm_messages.h) and its bytes, from start to
   before end; at the end of the file start is the last character's offset, and end equals it. The
   room for diagnostics is the shortest length. Starts never fall: no diagnostic starts before the
   one before it (proved: `starts_in_order`, docs/PROOFS.md). `masm_lines` has its line and column.

   Slices can also be sized by calls. On `begin add end` and LF, each call reading it anew:

       room for tokens, events, diagnostics    returned    counts
             0             0         0         3           6  0  0
             6             0         0         5           6 14  0
             6            14         0         0           6 14  0

   An empty source has no token, so that its first call returns 5, with 0, 2 and 0.

   The caller keeps: no pointer is null, for an empty slice or source too, and each is aligned for
   its type; no slice that is written overlaps another or the source; during the call nobody else
   writes to any of them, and nobody else reads those that are written: meanwhile token_kinds holds
   kinds with marks on them and starts holds token indices. Then nothing outside the slices is read
   or written but the stack. Any number of threads may call at once, with slices of their own; they
   may share a source. */
uint64_t masm_parse_text(uint64_t limit, const uint8_t *source, size_t source_len,
                         uint16_t *token_kinds, size_t token_kinds_len,
                         uint32_t *token_ends, size_t token_ends_len,
                         uint16_t *events, size_t events_len,
                         uint16_t *messages, size_t messages_len,
                         uint32_t *starts, size_t starts_len,
                         uint32_t *ends, size_t ends_len,
                         uint64_t *counts, size_t counts_len);

/* Lines and columns of offsets in a source, which need not be one that is accepted, nor UTF-8.

   CR LF, a CR alone and an LF alone each end a line, in quotes and comments too. A line end is
   completed at the offset behind its last byte: between the CR and the LF of a CR LF nothing has
   ended yet. The line of an offset is 1 plus the line ends completed at or before it, its column 1
   plus the bytes since the last of them.

   For each i below the shortest of the three lengths, lines[i] and columns[i] become those of
   offsets[i]; an offset above source_len counts as source_len. All else is as it was. Returns how
   many it wrote: all, where both are as long as `offsets`. Of a source over MASM_MAX_SOURCE bytes it
   writes nothing and returns 0.

   Offsets that never fall, such as `starts`, take one walk over the source; each of any others takes
   up to 2,048 bytes of it more. The caller keeps what it keeps for the call above. */
uint64_t masm_lines(const uint8_t *source, size_t source_len,
                    const uint32_t *offsets, size_t offsets_len,
                    uint32_t *lines, size_t lines_len,
                    uint32_t *columns, size_t columns_len);

#ifdef __cplusplus
}
#endif

#endif

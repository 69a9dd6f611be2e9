/* The names of the kinds, which are those of the Rust's syntax.rs, and the texts of statuses. */
#ifndef MASM_NAMES_H
#define MASM_NAMES_H

#include "masm_cst.h"

/* The name of a kind, or of an event that is no MASM_CLOSE: MASM_ERROR_TOKEN is an Error too. Of
   any other number an empty one. */
static inline const char *masm_kind_name(uint16_t kind)
{
    static const char *const names[MASM_ERROR_TOKEN + 1] = {
        "Tombstone",
        "Error",
        "SourceFile",
        "Doc",
        "Namespace",
        "ExternPackage",
        "Submodule",
        "Import",
        "ImportList",
        "ImportSpecifier",
        "Constant",
        "TypeDecl",
        "AdviceMap",
        "BeginBlock",
        "Procedure",
        "Attribute",
        "Visibility",
        "Signature",
        "Block",
        "IfOp",
        "WhileOp",
        "DoWhileOp",
        "RepeatOp",
        "Instruction",
        "Path",
        "Expr",
        "TypeBody",

        "Whitespace",
        "Newline",
        "Comment",
        "DocComment",
        "Ident",
        "SpecialIdent",
        "Number",
        "QuotedIdent",
        "QuotedString",
        "At",
        "Bang",
        "Colon",
        "ColonColon",
        "Comma",
        "Dot",
        "DotDot",
        "DotDotDot",
        "Equal",
        "LAngle",
        "LBrace",
        "LBracket",
        "LParen",
        "Minus",
        "Plus",
        "RAngle",
        "RArrow",
        "RBrace",
        "RBracket",
        "RParen",
        "Semicolon",
        "Slash",
        "SlashSlash",
        "Star",

        "Error"
    };
    return kind <= MASM_ERROR_TOKEN ? names[kind] : "";
}

/* What a status says; of a number that is none an empty text. */
static inline const char *masm_status_text(uint64_t status)
{
    switch (status) {
    case MASM_ACCEPTED: return "the script was read";
    case MASM_TOO_LONG: return "the script is longer than 1048576 bytes";
    case MASM_NOT_UTF8: return "the script is not well-formed UTF-8";
    case MASM_TOKEN_SHORT: return "the script has more tokens than there is room for";
    case MASM_UNWANTED: return "the script has the word `use` or `extern`, which is not allowed";
    case MASM_OUTPUT_SHORT:
        return "the script has more events or diagnostics than there is room for";
    case MASM_COUNTS_SHORT: return "the slice of counts is shorter than 3";
    case MASM_LIMIT_OUT_OF_RANGE: return "the limit on control-flow nesting is not from 1 to 256";
    default: return "";
    }
}

#endif

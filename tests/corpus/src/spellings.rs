//! Spellings of tokens: every kind, every keyword and the lexer's edges occur.

/// The words that the parser tells from other identifiers.
pub const KEYWORDS: [&str; 18] = [
    "adv_map", "begin", "const", "do", "else", "end", "enum", "extern", "if", "mod", "namespace",
    "package", "proc", "pub", "repeat", "type", "use", "while",
];

pub const SPELLINGS: [&str; 60] = [
    "adv_map", "begin", "const", "do", "else", "end", "enum", "extern", "if", "mod", "namespace",
    "package", "proc", "pub", "repeat", "type", "use", "while", "\n", "\r", "\r\n", "\t", "#c",
    "#!d", "a", "$kernel", "$exec", "$x", "1", "0x", "0b1", "\"q\"", "\"a b\"", "\"\\\"\"", "\"u",
    "é", "@", "!", ":", "::", ",", ".", "..", "...", "=", "<", "{", "[", "(", "-", "+", ">", "->",
    "}", "]", ")", ";", "/", "//", "*",
];

/// Spellings that make new tokens where they meet without a space between.
pub const GLUED: [&str; 40] = [
    "begin", "end", "while", "pub", "proc", "use", " ", "\t", "\n", "\r", "\r\n", "#", "#!", "a",
    "_", "$", "$kernel", "$exec", "0", "1", "x", "b", "0x", "0B", "\"", "\"q\"", "\\", "é", "!",
    ":", ".", "-", ">", "/", "(", ")", "=", "@", ";", "😀",
];

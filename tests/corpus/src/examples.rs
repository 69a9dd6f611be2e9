//! Document 01's examples, the messages' smallest inputs, and sources that tell the reader's definitions from their neighbours.

use reference::messages;

use crate::{chosen::CHOSEN, limits::UNIT, spellings::KEYWORDS};

const TABLE: [&str; 20] = [
    "", "begin", "\r\r\n", "\"\"", "\"a b\"", "\"a\\\nb\"", "\"a\n", "0b12", ")",
    "proc a const X = 1", "begin do while.true end while end end", "begin do while .a end end",
    "type T = felt\nfoo", "proc a pub ( end\n", ") proc b end", "proc a pub ( end\n) proc b end",
    "const X = 1 \n", "const X = 1 \nproc", "begin add # comment\nend\n", "begin add end\n",
];

/// Places where one more or one less piece of trivia, kind or letter would be taken.
const NEIGHBOURS: [&str; 63] = [
    // Trivia inside forms.
    "adv_map X\n(a) = 1", "adv_map X (a) = 1", "@a\n(b) proc c end", "proc a() -> #c\nf\nend",
    "proc a() ->\nf\nend", "proc a()\n-> f\nend", "proc()->#", "proc()->#!", "namespace a\n::b",
    "namespace a:: #c\nb", "namespace a #c\n::b", "namespace::#", "namespace:: ", "pub(#!\n)proc",
    "pub(#c\npackage)proc", "@a pub#!\n(package)proc", "pub\n(\npackage\n)\nproc a end",
    // Line ends.
    "mod a #c", "const A = 1 #c", "const A = 1 #!d", "namespace a #c", "begin #c", "begin do\n",
    "begin do#", "begin repeat#", "begin while#", "begin if#", "begin if.x else#",
    "begin do while#", "begin a #c\nb end", "proc a() -> b #c\nend",
    // Terminators in every form.
    "begin repeat end", "begin while end", "begin if end", "begin do end", "begin do while end",
    "begin if.x else end", "begin if.x else while", "begin do while.a end while b end",
    "begin if.x else else end end", "begin if.x proc a else end", "begin if.x @ else", "pub begin",
    // Suffixes.
    "begin if.\"a b\" end end", "begin if. x end end", "begin if .x end end", "begin if.@",
    "begin repeat.\" \"", "begin while.[a] end", "begin if.x.1 .$exec end",
    // Delimiters and doc comments.
    "begin a(#!d\n) end", "begin a(#!d\nproc) end", "begin a(]) b end",
    // Classes of letters.
    "Z", "z", "$Kernel", "89", "0b0", "0xg", "0X", "0xF", "\"!\"", "\"~\"",
];

/// One spelling of every kind that a token can have.
const KINDS: [&str; 34] = [
    "é", " ", "\n", "#c\n", "#!d\n", "c", "$exec", "1", "\"q\"", "\"a b\"", "@", "!", ":", "::",
    ",", ".", "..", "...", "=", "<", "{", "[", "(", "-", "+", ">", "->", "}", "]", ")", ";", "/",
    "//", "*",
];

/// Document 01's and the messages' smallest.
pub fn documented() -> impl Iterator<Item = Vec<u8>> {
    let table = TABLE.iter().map(|text| text.as_bytes().to_vec());
    table.chain(messages::rows().iter().map(|row| row.smallest.clone()))
}

/// Those chosen by hand: neighbours, and every kind and word where lists of them are asked.
pub fn neighbours() -> impl Iterator<Item = Vec<u8>> {
    let kinds = KINDS
        .iter()
        .flat_map(|kind| [format!("begin a {kind} b end"), format!("begin a{kind} b end")]);
    let words = KEYWORDS.iter().filter(|word| !matches!(**word, "use" | "extern"));
    let words = words.flat_map(|word| {
        [
            format!("begin a {word} b end"),
            format!("begin\n#!d\n{word}"),
            format!("const A = 1 {word}"),
            format!("pub {word}"),
        ]
    });
    let texts = NEIGHBOURS.iter().map(|text| text.to_string());
    texts.chain(kinds).chain(words).map(String::into_bytes)
}

/// The limit on nesting met in every form, in the second block of an `if` and a `do`, and just not met.
pub fn deepest() -> impl Iterator<Item = Vec<u8>> {
    let met = ["do do", "while while", "repeat repeat", "if else if", "do while if"];
    let met = met.into_iter().map(|last| opened(UNIT - 1, last));
    let inner =
        "repeat if a end end while if end end do if end while if end end if if end else if end end";
    met.chain([opened(UNIT - 2, inner)])
}

/// So many open `if`, and what stands behind them.
fn opened(depth: usize, behind: &str) -> Vec<u8> {
    format!("begin {}{behind}", "if ".repeat(depth)).into_bytes()
}

/// Those that a search among short sources has chosen: each tells a mutant of the reference that no other does.
pub fn chosen() -> impl Iterator<Item = Vec<u8>> {
    CHOSEN.iter().map(|text| text.as_bytes().to_vec())
}

pub fn all() -> impl Iterator<Item = Vec<u8>> {
    documented().chain(neighbours()).chain(deepest()).chain(chosen())
}

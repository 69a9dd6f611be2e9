//! Limits: nesting around its limit, sources around 1,048,576 bytes, quotes at every ending.

use reference::MAX_SOURCE;

/// Control forms: what opens one, what stands before its closer, its closer.
pub const FORMS: [(&str, &str, &str); 6] = [
    ("if ", "", "end "),
    ("if.true ", "else ", "end\n"),
    ("while ", "", "end "),
    ("while.true\n", "", "end\n"),
    ("repeat.3 ", "", "end "),
    ("do ", "while ", "end "),
];

/// The control forms nested two less deep than a limit allows to three more, closed and left open, in both owners.
pub fn depths(limit: usize) -> impl Iterator<Item = Vec<u8>> {
    let around = limit.saturating_sub(2)..=limit + 3;
    around.flat_map(|depth| [mixed(depth)].into_iter().chain(alike(depth)))
}

/// All forms in turn, one in the other.
fn mixed(depth: usize) -> Vec<u8> {
    let forms: Vec<_> = FORMS.iter().cycle().take(depth).collect();
    let opened: String = forms.iter().map(|(open, ..)| *open).collect();
    let closed: String =
        forms.iter().rev().map(|(_, middle, close)| format!("{middle}{close}")).collect();
    format!("begin {opened}add {closed}end\n").into_bytes()
}

/// Each form in itself.
fn alike(depth: usize) -> impl Iterator<Item = Vec<u8>> {
    FORMS.iter().flat_map(move |(open, middle, close)| {
        let opened = open.repeat(depth);
        let closed = format!("{middle}{close}").repeat(depth);
        [
            format!("begin {opened}add {closed}end\n"),
            format!("proc a {opened}add {closed}end\nproc b add end\n"),
            format!("begin {opened}"),
            format!("begin {opened}{middle}{open}add"),
            format!("proc a {opened}{closed}{opened}{closed}end"),
            format!("begin {opened}{close}{close}proc b end"),
        ]
        .map(String::into_bytes)
    })
}

/// Sources of the largest size, some also one byte shorter and longer, made of one piece.
pub fn sizes() -> impl Iterator<Item = Vec<u8>> {
    let around = MAX_SOURCE - 1..=MAX_SOURCE + 1;
    let plain = around.flat_map(|size| [" ", "\n", "a", "é"].map(|piece| filled("", piece, size)));
    let full =
        [("", "\r"), ("#", "c"), ("#!", "d"), ("\"", "q"), ("", "$"), ("", "😀"), ("0x", "f")];
    plain.chain(full.into_iter().map(|(start, piece)| filled(start, piece, MAX_SOURCE)))
}

/// Around the 2,048 bytes that program `tree` reads: spaces, and more diagnostics than it has room for.
pub fn tree_sizes() -> impl Iterator<Item = Vec<u8>> {
    let around = 2_047..=2_049;
    around.flat_map(|size| [" ", "@$", "proc a"].map(|piece| filled("", piece, size)))
}

/// The longest source that `tree` reads and the next, and one with more diagnostics than it has room for.
pub fn tree_bounds() -> impl Iterator<Item = Vec<u8>> {
    [(" ", 2_048), (" ", 2_049), ("@$", 2_048)]
        .into_iter()
        .map(|(piece, size)| filled("", piece, size))
}

/// `start`, then `piece` as often as it fits, then dots up to the size.
fn filled(start: &str, piece: &str, size: usize) -> Vec<u8> {
    let mut bytes = start.as_bytes().to_vec();
    bytes.extend(piece.repeat((size - start.len()) / piece.len()).bytes());
    bytes.resize(size, b'.');
    bytes
}

/// Quotes with every content and ending, alone and in a block, last characters of every length.
pub fn endings() -> impl Iterator<Item = Vec<u8>> {
    let contents = ["", "a", "a b", "\\\"", "\\\n", "\\\r\n", "\\\\", "é", "~", "\u{7F}", "\\é"];
    let closers = ["\"", "", "\n", "\r", "\r\n", "\\", "\"\"", "\"a"];
    let quotes = contents
        .into_iter()
        .flat_map(move |content| closers.map(|closer| format!("\"{content}{closer}")));
    let quoted = quotes.flat_map(|quote| {
        [format!("begin push.{quote} end"), format!("const A = {quote}\nproc"), quote]
    });
    let lasts = ["", "a", "é", "€", "😀", "\n", "\r", "#é", "\"é", "\\"].into_iter();
    let cut = lasts.flat_map(|last| {
        ["begin ", "proc a if.", "@", "mod ", "type T = (", "adv_map A("]
            .map(|start| format!("{start}{last}"))
    });
    quoted.chain(cut).map(String::into_bytes)
}

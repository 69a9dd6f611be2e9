//! Sources whose bytes choose spellings and forms, so that most are accepted and reach far into
//! the grammar.

use std::sync::LazyLock;

use corpus::spellings::{GLUED, SPELLINGS};

/// This byte repeats the piece before it; the next byte says how often.
const AGAIN: u8 = 255;

/// Starts, middles and ends of forms, and whole ones.
const FORMS: [&str; 97] = [
    "begin\n", "begin ", "proc a\n", "proc b ", "pub proc c\n", "pub(package) proc d ", "\nend\n",
    "end\n", " end ", "end", "\nelse\n", "else ", "if.true\n", "if.eq ", "if ", "while.true\n",
    "while.lt ", "while ", "while\n", "while .a ", "do\n", "do ", "repeat.5\n", "repeat.N ",
    "repeat ", "repeat.(1+2) ", "if.[", "if.(", "while.[a]\n", "repeat.{", "repeat.", "add\n",
    "push.1.2 ", "push.[1,2]\n", "exec.::a::b\n", "call.\"a b\" ", "emit.event(\"x\")\n",
    "assert.err=\"e\" ", "push.word(\"s\") ", "debug.stack.4 # c\n", "adv.push_mapval ",
    "const A = ", "const B = 1\n", "pub const C = (A + 1) // 2\n", "const D = word(\"x\")\n",
    "const ", "type T = ", "type U = felt\n", "type V = struct { a: u8, b: [u8; 4] }",
    "type W = struct @packed { ", "type P = ptr<u8, addrspace(felt)>\n",
    "type F = fn(a: u8) -> b\n", "enum E : u8 {\n A,\n B = 2,\n}\n", "enum E { ",
    "enum E : u8 { A(felt), ", "adv_map M = [1, 2]\n", "adv_map M(0x1) = [", "adv_map ", "mod m\n",
    "pub mod n\n", "mod ", "namespace a::b\n", "namespace ", "@a\n", "@locals(4)\n",
    "@a(b, c = \"d\")\n", "@cc(\"C\") ", "@a(", "#! doc\n", "\n#! doc\n#! more\n", "# c\n",
    " # c\n", "\n\n", "(a: felt, b: word) -> felt\n", "() -> (a: u8)\n", "(", ") ", "-> ", "{ ",
    "}\n", "[", "]\n", ", ", ": ", "= ", "ptr<", ">", "struct { ", "felt ", "a::b ", "::a",
    "\"q\" ", "0xff ", "err=", "pub (\n", "package ", "use a::b\n",
];

/// `use` and `extern` refuse the whole source: they stand in the forms alone.
static PIECES: LazyLock<Vec<String>> = LazyLock::new(|| {
    let wanted = |word: &&&str| !matches!(**word, "use" | "extern");
    let words = SPELLINGS.iter().filter(wanted).map(|word| format!("{word} "));
    let glued = GLUED.iter().filter(wanted).map(|word| word.to_string());
    words.chain(glued).chain(FORMS.map(str::to_string)).collect()
});

/// The pieces that the bytes choose, one behind the other, up to about `most` bytes.
pub fn spelled(bytes: &[u8], most: usize) -> Vec<u8> {
    let (mut text, mut last) = (Vec::new(), "");
    let mut bytes = bytes.iter();
    while let (true, Some(&byte)) = (text.len() < most, bytes.next()) {
        if byte == AGAIN {
            let times = 2 * usize::from(bytes.next().copied().unwrap_or_default());
            let fit = (most - text.len()) / last.len().max(1);
            text.extend(last.repeat(times.min(fit)).bytes());
        } else {
            last = &PIECES[usize::from(byte) % PIECES.len()];
            text.extend(last.bytes());
        }
    }
    text
}

#[cfg(test)]
mod tests {
    use super::*;

    #[test]
    fn each_piece_has_a_byte() {
        assert!(PIECES.len() <= usize::from(AGAIN));
    }

    #[test]
    fn bytes_choose_pieces() {
        assert_eq!(spelled(&[0, 1, AGAIN, 1, 2], 99), b"adv_map begin begin begin const ");
        assert_eq!(spelled(&[1, AGAIN, 9, 2, 3], 32), b"begin begin begin begin begin const ");
        assert_eq!(spelled(&[AGAIN, 3, AGAIN], 99), b"");
    }
}

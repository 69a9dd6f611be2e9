//! Two files to be joined: the first ends in a closed item and a newline, mostly.

use crate::{any_source, random::Random, script, sequences};

pub type Pair = (Vec<u8>, Vec<u8>);

/// Last items of a first file. The last four do not close as demand 3 asks.
pub const LAST: [&str; 14] = [
    "begin end\n",
    "proc a end\n",
    "begin add end\r\n",
    "pub proc a\nadd\nend\n",
    "begin if end end\n",
    "proc a pub ( end\n",
    "proc a pub end\n",
    "#! d\n@a proc a(b: felt) -> felt\n push.1 # c\nend\n",
    "proc a ) ] end\n",
    "begin do while end end\n",
    "begin if end\n",
    "begin end",
    "begin end \n",
    "const X = 1\n",
];

/// Starts of a second file.
pub const STARTS: [&str; 16] = [
    "", "end\n", "else ", "x ", "( ", "] ", ") ", "#! d\n", "# c\n\n", "\n", " ", "pub ", ":: ",
    "-> ", "\"u", "é",
];

pub fn pair(random: &mut Random) -> Pair {
    let first = before(random);
    let first = ended(random.pick(&LAST), first);
    let start = random.pick(&STARTS);
    (first, started(start, before(random)))
}

/// A first file with its last item.
pub fn ended(last: &str, mut source: Vec<u8>) -> Vec<u8> {
    source.extend(last.bytes());
    source
}

/// A second file with its start.
pub fn started(start: &str, source: Vec<u8>) -> Vec<u8> {
    [start.as_bytes(), &source].concat()
}

pub fn joined(random: &mut Random) -> Vec<u8> {
    let (first, second) = pair(random);
    [first, second].concat()
}

/// Some source, often one whose last line is complete.
fn before(random: &mut Random) -> Vec<u8> {
    match random.below(6) {
        0 => Vec::new(),
        1 | 2 => script::script(random, 60).into_bytes(),
        3 => {
            let mut source = sequences::sample(random);
            source.push(b'\n');
            source
        },
        _ => any_source(random),
    }
}

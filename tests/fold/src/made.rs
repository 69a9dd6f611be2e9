//! Scripts without end: those of the fuzzer, and what matters to a view put into them.

use corpus::{random::Random, tails::broken_script};
use fuzz::{check::Input, generate::case};
use reference::MAX_CONTROL_FLOW_NESTING;

/// Quotes over lines, line ends of all sorts, letters, delimiters left open, words that start items.
const PIECES: [&str; 50] = [
    "\"a\\\n  b\" ", "\"a\\\nproc b\" ", "\"\\\r\"", "\"x\\\r\n", "\"x\\\r\\\n\\\n", "\"x\\\n",
    "\"x\\\r\r", "(", "[", "{", ")", "\nproc ", "\n@a ", "\n  pub ", "\nbegin ", "\rconst ", "\r",
    "\r\n", "\r\r\n", "\n\n", " ", "\t", "    \n", "# é 料金 \u{202E}\u{301} 😀\n", "é", "料金",
    "\u{A0}", "\u{2800}", "±±", "\u{7F}", "\\", "\u{1B}[2J", "\ntype T = felt\nexec.a\n",
    "\nconst A = (1\n", "\n@a(\nproc b end\n", "proc\nbegin\n", "\nproc a(\nb: felt\n)\nend\n",
    "\nbegin add\nend const B = 1 # c\n", "\nproc a add end\n", "end ", "#! d\n", "push.[\n",
    "if.\n", "@\n# c\n@b proc c end\n", "$\r", "\r\r\n $\r\n", "\"\\\r\n", "\"a\\\r  b\\\rc\" ",
    "# c\rproc d\r", "\n\r",
];

/// A line that is wrapped more than once.
const LONGEST: usize = 300;

/// One in so many scripts is cut in a character, or has a wrong byte in one.
const BROKEN: u64 = 20;

/// One in so many scripts stands behind blocks up to the limit of depth, or beyond it.
const DEEP: usize = 40;

/// A script, and the limit of depth at which it is to be shown; the number may be none.
pub struct Script {
    pub source: Vec<u8>,
    pub limit: u64,
}

/// The script of a number; the same for the same seed.
pub fn script(seed: u64, number: u64) -> (Script, Random) {
    let (input, mut random) = case(seed, number);
    let (limit, mut source) = match input {
        Input::Source(limit, source) => (limit, source),
        Input::Pair(limit, first, second) => (limit, [first, second].concat()),
    };
    if number.is_multiple_of(BROKEN) {
        let (source, end) = (broken_script(&mut random), random.pick(&["\n", "\r\n", "\r"]));
        let source = ended(&source, |_| end, &mut random);
        return (Script { source, limit }, random);
    }
    if random.one_in(DEEP) {
        let most = limit.min(MAX_CONTROL_FLOW_NESTING) as usize;
        let depth = (most + 2).saturating_sub(random.below(5));
        let blocks = random.pick(&["if.true\n", "do ", "repeat.2 # c\n"]).repeat(depth);
        source = [b"begin\n", blocks.as_bytes(), &source].concat();
    }
    let source = match random.below(8) {
        0..3 => source,
        3 => {
            let end = random.pick(&["\r\n", "\r", "\r\r\n"]);
            ended(&source, |_| end, &mut random)
        },
        4 => ended(&source, |random| random.pick(&["\n", "\r\n", "\r"]), &mut random),
        _ => pieces(source, &mut random),
    };
    let last = if random.one_in(8) { random.pick(&["\r", "\r\n", "\"\\\r\n", "$\r"]) } else { "" };
    (Script { source: [&source, last.as_bytes()].concat(), limit }, random)
}

fn ended(
    source: &[u8],
    mut end: impl FnMut(&mut Random) -> &'static str,
    random: &mut Random,
) -> Vec<u8> {
    let mut made = Vec::new();
    for &byte in source {
        match byte {
            b'\n' => made.extend(end(random).bytes()),
            _ => made.push(byte),
        }
    }
    made
}

/// A few pieces between characters, one of them perhaps often.
fn pieces(mut source: Vec<u8>, random: &mut Random) -> Vec<u8> {
    for _ in 0..random.between(1, 6) {
        let mut at = random.below(source.len() + 1);
        while at < source.len() && source[at] & 0xC0 == 0x80 {
            at += 1;
        }
        let piece = random.pick(&PIECES);
        let times = if random.one_in(20) { random.between(1, LONGEST / piece.len()) } else { 1 };
        source.splice(at..at, piece.repeat(times).into_bytes());
    }
    source
}

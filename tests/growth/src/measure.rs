//! The instructions that a call takes on a source of each family.

use std::thread;

use corpus::{random::Random, script::script, shapes::SHAPES};

use crate::{
    broken,
    callgrind::{Counted, Run},
    limits, names,
};

/// The most bytes of the script that is repeated; it is made a little shorter.
const SCRIPT: usize = 8_192;

/// What is answered first of a source that is read whole, and where every offset has its line.
pub const ACCEPTED: u64 = 0;

/// Counts for one function and two sizes.
pub struct Measure {
    pub counted: Counted,
    pub sizes: [usize; 2],
}

pub struct Row {
    pub name: &'static str,
    /// Of the longer source.
    pub bytes: usize,
    /// Of the longer source: tokens, or offsets.
    pub count: u64,
    /// For both sources.
    pub instructions: [u64; 2],
}

/// A family's source of a size.
pub type Make = Box<dyn Fn(usize) -> Vec<u8> + Sync>;

pub struct Family {
    pub name: &'static str,
    /// They choose the call.
    pub words: &'static [&'static str],
    /// The first number of the answer.
    pub answer: u64,
    pub make: Make,
}

impl Family {
    /// Sources that are read.
    pub fn read(name: &'static str, answer: u64, make: Make) -> Self {
        Self { name, words: &[], answer, make }
    }
}

/// The families that are read.
pub fn families() -> impl Iterator<Item = Family> {
    let scripts = Family::read("a script", ACCEPTED, Box::new(scripts));
    let shapes = SHAPES.iter().map(|shape| {
        let make: Make = Box::new(|size| shape.sized(size));
        Family::read(shape.name, ACCEPTED, make)
    });
    let accepted = [scripts].into_iter().chain(shapes).chain(names::families());
    accepted.chain(limits::families()).chain(broken::families())
}

/// One script again and again, so that both sizes hold the same mixture.
pub fn scripts(size: usize) -> Vec<u8> {
    let most = size.min(SCRIPT);
    let one = script(&mut Random::new(7), most * 7 / 8);
    assert!(one.len() <= most, "a script of {} bytes", one.len());
    one.repeat(size / most).into_bytes()
}

impl Measure {
    /// The rows of these families, measured side by side.
    pub fn rows(&self, families: &[Family]) -> Vec<Result<Row, String>> {
        thread::scope(|scope| {
            let measured: Vec<_> =
                families.iter().map(|family| scope.spawn(|| self.row(family))).collect();
            measured.into_iter().map(|row| row.join().expect("a row is measured")).collect()
        })
    }

    /// The answer to every family's source is a number that is known and, where it is 0, a count,
    /// then more.
    fn row(&self, Family { name, words, answer, make }: &Family) -> Result<Row, String> {
        let mut row = Row { name, bytes: 0, count: 0, instructions: [0; 2] };
        for (size, instructions) in self.sizes.into_iter().zip(&mut row.instructions) {
            let source = make(size);
            let run = self.counted.run(words, &source)?;
            let [first, count] = numbers(name, &run)?;
            if first != *answer {
                return Err(format!("{name}: not {answer}, but answered `{}`", run.answer));
            }
            row.bytes = source.len();
            row.count = if first == ACCEPTED { count } else { 0 };
            *instructions = run.instructions;
        }
        Ok(row)
    }
}

/// The first two numbers of an answer.
pub fn numbers(name: &str, run: &Run) -> Result<[u64; 2], String> {
    let numbers: Vec<u64> =
        run.answer.split(' ').filter_map(|number| number.parse().ok()).collect();
    match numbers[..] {
        [first, second, ..] => Ok([first, second]),
        _ => Err(format!("{name}: answered `{}`", run.answer)),
    }
}

impl Row {
    pub fn ratio(&self) -> f64 {
        self.instructions[1] as f64 / self.instructions[0] as f64
    }

    pub fn per_byte(&self) -> f64 {
        self.instructions[1] as f64 / self.bytes as f64
    }
}

//! Lines and columns of offsets, by the program.

use corpus::{
    Case, Family,
    frame::lines_frame,
    offsets::{Order, Question},
};
use reference::{
    answer::FILL_U32,
    lines::{Left, left},
};

use crate::part::{Exchange, Part, push_line};

pub fn part() -> Part {
    Part { name: "lines", families: Family::UNIT, exchange: Box::new(exchange) }
}

/// Answer: how many were written, then what is left in the slices of lines and columns. An example
/// is asked for rising offsets, another source in an order that depends on it.
fn exchange(case: &Case) -> Exchange {
    let order = match case.family {
        Family::Examples => Order::Rising,
        _ => Order::chosen(&case.source),
    };
    let [question] = &Question::of(case, &[order])[..] else { unreachable!("one for one order") };
    let expected = text(&expected(&case.source, question));
    Exchange { frame: lines_frame(&case.source, question), expected }
}

/// What M-102 says of slices that hold the filler.
pub fn expected(source: &[u8], question: &Question) -> Left {
    let [lines, columns] = [question.lines, question.columns].map(|room| vec![FILL_U32; room]);
    left(source, &question.offsets, lines, columns)
}

/// The three lines of an answer.
pub fn text(left: &Left) -> Vec<u8> {
    let mut text = Vec::new();
    push_line(&mut text, [left.returned]);
    push_line(&mut text, left.lines.iter().copied());
    push_line(&mut text, left.columns.iter().copied());
    text
}

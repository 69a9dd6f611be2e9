//! The whole reader: the exported call against the upstream parser, and against what no reader can
//! do without.

use reference::{MAX_CONTROL_FLOW_NESTING, Rooms, Slices, answer, parser};

use crate::{inputs, table, timing};

type Side = timing::Side<Lent>;

const SIDES: [Side; 3] = [
    Side { name: "call", call: proved },
    Side { name: "reference", call: upstream },
    Side { name: "copy", call: copy },
];

/// What the sides write to; `counts` is the call's answer.
struct Lent {
    slices: Slices,
    counts: [u64; 3],
    source: Vec<u8>,
}

/// The table of the readers' times.
pub fn run() {
    println!("readers: `call` is masm_parse_text, all slices written;");
    println!("`reference` is from_utf8 and parse_text, whose builder is a stand-in that keeps the");
    println!("sequence of its calls and makes no tree; its texts of diagnostics are made;");
    println!("`copy` copies the source and writes as many entries as the call does");
    table::print_head(&SIDES);
    for input in inputs::for_readers() {
        let rooms = Rooms::ample(input.bytes.len());
        let counts = check(&input, rooms);
        let source = vec![0; input.bytes.len()];
        let mut lent = Lent { slices: Slices::filled(rooms), counts, source };
        let times = timing::time(&SIDES, &input.bytes, &mut lent);
        table::print_row(input.name, input.bytes.len(), counts[0], &times);
    }
}

/// The call's answer, which is the reference's.
fn check(input: &inputs::Input, rooms: Rooms) -> [u64; 3] {
    let expected = answer(MAX_CONTROL_FLOW_NESTING, &input.bytes, rooms);
    let mut slices = Slices::filled(rooms);
    let status = exported::parse_text(MAX_CONTROL_FLOW_NESTING, &input.bytes, (&mut slices).into());
    let same = (status, slices) == (expected.status, expected.slices);
    assert!(same, "call and reference differ on {}", input.name);
    expected.counts
}

/// The number of diagnostics.
fn upstream(source: &[u8], _: &mut Lent) -> u64 {
    let text = std::str::from_utf8(source).expect("a well-formed source");
    parser::parse_text(text).diagnostics().len() as u64
}

fn proved(source: &[u8], lent: &mut Lent) -> u64 {
    exported::parse_text(MAX_CONTROL_FLOW_NESTING, source, (&mut lent.slices).into())
}

fn copy(source: &[u8], lent: &mut Lent) -> u64 {
    let [tokens, events, diagnostics] = lent.counts.map(|count| count as usize);
    let slices = &mut lent.slices;
    lent.source.copy_from_slice(source);
    slices.token_kinds[..tokens].fill(1);
    slices.token_ends[..tokens].fill(2);
    slices.events[..events].fill(3);
    slices.messages[..diagnostics].fill(4);
    slices.starts[..diagnostics].fill(5);
    slices.ends[..diagnostics].fill(6);
    std::hint::black_box((&lent.source, slices));
    0
}

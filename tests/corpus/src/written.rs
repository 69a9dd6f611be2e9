//! Scripts as people write them: items of examples/vault.masm, half of whose bytes are comments,
//! in an order that never repeats for long.

use crate::random::Random;

const VAULT: &str = include_str!("../../../examples/vault.masm");

/// A script of at most this size, cut at the end of a line: the example itself as far as it goes,
/// then items picked from it.
pub fn written(size: usize) -> Vec<u8> {
    let items = items();
    let mut random = Random::new(11);
    let mut text = VAULT.trim_end().to_string();
    while text.len() < size {
        text += "\n\n";
        text += random.pick(&items);
    }
    text.truncate(size);
    let end = text.rfind('\n').map_or(0, |last| last + 1);
    text.truncate(end);
    text.into_bytes()
}

/// The procedures, each with the comments before it.
fn items() -> Vec<&'static str> {
    let ends = VAULT.match_indices("\nend\n").map(|(at, found)| at + found.len());
    let mut start = VAULT.find("#! Gives back").expect("the first procedure");
    let mut items = Vec::new();
    for end in ends {
        items.push(VAULT[start..end].trim());
        start = end;
    }
    items.pop().expect("the last is `begin`");
    items
}

#[cfg(test)]
mod tests {
    use super::*;
    use reference::{MAX_CONTROL_FLOW_NESTING, Rooms, answer};

    #[test]
    fn items_are_procedures() {
        let items = items();
        assert_eq!(items.len(), 8);
        assert!(items.iter().all(|item| item.starts_with("#!") && item.ends_with("\nend")));
    }

    #[test]
    fn written_scripts_have_no_diagnostics() {
        let source = written(20_000);
        let whole = &source[..source.windows(6).rposition(|w| w == b"\nend\n\n").unwrap() + 5];
        let answer = answer(MAX_CONTROL_FLOW_NESTING, whole, Rooms::ample(whole.len()));
        assert_eq!((answer.status, answer.counts[2]), (0, 0));
    }
}

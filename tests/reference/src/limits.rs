//! The upstream parser at each limit on control-flow nesting with which it is compiled.

use std::ops::RangeInclusive;

use miden_utils_diagnostics::miette::MietteDiagnostic;
use rowan::GreenNode;

/// The unit's limit, and the greatest.
pub const MAX_CONTROL_FLOW_NESTING: u64 = limit_256::MAX_CONTROL_FLOW_NESTING as u64;

/// Any other limit is refused with 9.
pub const ALLOWED: RangeInclusive<u64> = 1..=MAX_CONTROL_FLOW_NESTING;

/// The limits with which the parser is compiled, in rising order.
pub const LIMITS: [u64; 6] = {
    let (mut limits, mut at) = ([0; PARSERS.len()], 0);
    while at < limits.len() {
        limits[at] = PARSERS[at].0 as u64;
        at += 1;
    }
    limits
};

type Parser = fn(&str) -> (GreenNode, Vec<MietteDiagnostic>);

const PARSERS: [(usize, Parser); 6] = [
    (limit_1::MAX_CONTROL_FLOW_NESTING, limit_1::parse),
    (limit_2::MAX_CONTROL_FLOW_NESTING, limit_2::parse),
    (limit_3::MAX_CONTROL_FLOW_NESTING, limit_3::parse),
    (limit_64::MAX_CONTROL_FLOW_NESTING, limit_64::parse),
    (limit_255::MAX_CONTROL_FLOW_NESTING, limit_255::parse),
    (limit_256::MAX_CONTROL_FLOW_NESTING, limit_256::parse),
];

/// The least of them that is not below this one, if there is one.
pub fn at_least(limit: u64) -> Option<u64> {
    LIMITS.into_iter().find(|compiled| *compiled >= limit)
}

/// What the parser with this limit makes of a text.
pub fn parse(limit: u64, text: &str) -> (GreenNode, Vec<MietteDiagnostic>) {
    let place = LIMITS.iter().position(|other| *other == limit);
    let place = place.unwrap_or_else(|| panic!("no parser is compiled with limit {limit}"));
    (PARSERS[place].1)(text)
}

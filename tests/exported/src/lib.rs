//! The exported calls of the proved reader, on slices.

pub mod accepted;
pub mod imitation;
pub mod zones;

use reference::Slices;

/// Whether an archive with the calls is linked.
pub const LINKED: bool = cfg!(masm_cst);

/// What to say where it is not.
pub const MISSING: &str = "no archive with masm_parse_text and masm_lines (see tests/README.md)";

/// The slices that a call of `masm_parse_text` writes to.
pub struct Lent<'a> {
    pub counts: &'a mut [u64],
    pub token_kinds: &'a mut [u16],
    pub token_ends: &'a mut [u32],
    pub events: &'a mut [u16],
    pub messages: &'a mut [u16],
    pub starts: &'a mut [u32],
    pub ends: &'a mut [u32],
}

impl<'a> From<&'a mut Slices> for Lent<'a> {
    fn from(slices: &'a mut Slices) -> Self {
        let Slices { counts, token_kinds, token_ends, events, messages, starts, ends } = slices;
        Self { counts, token_kinds, token_ends, events, messages, starts, ends }
    }
}

#[cfg(not(masm_cst))]
pub fn parse_text(_: u64, _: &[u8], _: Lent) -> u64 {
    panic!("{MISSING}");
}

/// Makes the call; the status.
#[cfg(masm_cst)]
pub fn parse_text(limit: u64, source: &[u8], lent: Lent) -> u64 {
    let Lent { counts, token_kinds, token_ends, events, messages, starts, ends } = lent;
    // SAFETY: the pointers and lengths are those of eight slices that do not overlap.
    unsafe {
        masm_parse_text(
            limit,
            source.as_ptr(),
            source.len(),
            token_kinds.as_mut_ptr(),
            token_kinds.len(),
            token_ends.as_mut_ptr(),
            token_ends.len(),
            events.as_mut_ptr(),
            events.len(),
            messages.as_mut_ptr(),
            messages.len(),
            starts.as_mut_ptr(),
            starts.len(),
            ends.as_mut_ptr(),
            ends.len(),
            counts.as_mut_ptr(),
            counts.len(),
        )
    }
}

#[cfg(not(masm_cst))]
pub fn lines(_: &[u8], _: &[u32], _: &mut [u32], _: &mut [u32]) -> u64 {
    panic!("{MISSING}");
}

/// Makes the call for lines and columns; how many were written.
#[cfg(masm_cst)]
pub fn lines(source: &[u8], offsets: &[u32], lines: &mut [u32], columns: &mut [u32]) -> u64 {
    // SAFETY: the pointers and lengths are those of four slices, and those that are written overlap no other.
    unsafe {
        masm_lines(
            source.as_ptr(),
            source.len(),
            offsets.as_ptr(),
            offsets.len(),
            lines.as_mut_ptr(),
            lines.len(),
            columns.as_mut_ptr(),
            columns.len(),
        )
    }
}

// As include/masm_cst.h declares them.
#[cfg(masm_cst)]
unsafe extern "C" {
    fn masm_parse_text(
        limit: u64,
        source: *const u8,
        source_len: usize,
        token_kinds: *mut u16,
        token_kinds_len: usize,
        token_ends: *mut u32,
        token_ends_len: usize,
        events: *mut u16,
        events_len: usize,
        messages: *mut u16,
        messages_len: usize,
        starts: *mut u32,
        starts_len: usize,
        ends: *mut u32,
        ends_len: usize,
        counts: *mut u64,
        counts_len: usize,
    ) -> u64;

    fn masm_lines(
        source: *const u8,
        source_len: usize,
        offsets: *const u32,
        offsets_len: usize,
        lines: *mut u32,
        lines_len: usize,
        columns: *mut u32,
        columns_len: usize,
    ) -> u64;
}

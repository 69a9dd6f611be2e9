//! The frames that program `cases` reads.

use reference::{MAX_CONTROL_FLOW_NESTING, Rooms};

use crate::offsets::Question;

/// What is asked of a source; its number is the first of the frame.
#[derive(Debug, Clone, Copy, PartialEq, Eq)]
pub enum Asked {
    Tokens,
    Reading,
    Tree,
    Lines,
}

/// The number of what is asked, the limit, the length of the source and of the six slices, then the source.
pub fn frame(asked: Asked, limit: u64, source: &[u8], rooms: Rooms) -> Vec<u8> {
    let Rooms { token_kinds, token_ends, events, messages, starts, ends, .. } = rooms;
    let lengths = [source.len(), token_kinds, token_ends, events, messages, starts, ends];
    let numbers = [asked as u64, limit].into_iter().chain(lengths.map(|length| length as u64));
    let mut bytes = Vec::new();
    for number in numbers {
        let number = u32::try_from(number).expect("numbers of a frame fit in four bytes");
        bytes.extend(number.to_le_bytes());
    }
    bytes.extend(source);
    bytes
}

/// The frame for lines, with the unit's limit: the number of offsets stands in the place of the token ends, the rooms
/// of lines and columns in those of the starts and ends. The offsets follow the source.
pub fn lines_frame(source: &[u8], question: &Question) -> Vec<u8> {
    let Question { offsets, lines, columns } = question;
    let rooms = Rooms { token_ends: offsets.len(), starts: *lines, ends: *columns, ..Rooms::NONE };
    let mut bytes = frame(Asked::Lines, MAX_CONTROL_FLOW_NESTING, source, rooms);
    bytes.extend(offsets.iter().flat_map(|offset| offset.to_le_bytes()));
    bytes
}

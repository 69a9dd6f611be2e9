//! A call whose slices lie between red zones.

use reference::{
    Rooms, Slices,
    answer::{FILL_U16, FILL_U32, FILL_U64},
    lines::Left,
};

use crate::Lent;

/// The exported call, or one that is faulty on purpose.
pub type Call = fn(u64, &[u8], Lent) -> u64;

/// The exported call for lines and columns, or one that is faulty on purpose.
pub type LinesCall = fn(&[u8], &[u32], &mut [u32], &mut [u32]) -> u64;

/// Entries before and behind each slice that no call may write.
const ZONE: usize = 64;

/// No UTF-8 has this byte where a character starts.
const ZONE_BYTE: u8 = 0xAA;

/// The status at a limit, and what is left in the slices; nothing for the slices where a red zone is written.
pub fn call(made: Call, limit: u64, source: &[u8], rooms: Rooms) -> (u64, Option<Slices>) {
    let zone = [ZONE_BYTE; ZONE];
    let bytes = [&zone, source, &zone].concat();
    let mut slices = Slices::filled(with_zones(rooms));
    let status = made(limit, &bytes[ZONE..ZONE + source.len()], lent(&mut slices));
    (status, inside(&slices))
}

fn with_zones(rooms: Rooms) -> Rooms {
    let wide = |length: usize| length + 2 * ZONE;
    Rooms {
        counts: wide(rooms.counts),
        token_kinds: wide(rooms.token_kinds),
        token_ends: wide(rooms.token_ends),
        events: wide(rooms.events),
        messages: wide(rooms.messages),
        starts: wide(rooms.starts),
        ends: wide(rooms.ends),
    }
}

/// What a call for lines and columns returns and leaves in slices of these lengths; nothing where a
/// red zone is written. Before the source stand CRs and behind it LFs, with which a call that looks
/// there would pair an LF or a CR.
pub fn call_lines(
    made: LinesCall,
    source: &[u8],
    offsets: &[u32],
    [lines, columns]: [usize; 2],
) -> Option<Left> {
    let bytes = [&[b'\r'; ZONE], source, &[b'\n'; ZONE]].concat();
    let asked = [&[FILL_U32; ZONE], offsets, &[FILL_U32; ZONE]].concat();
    let before = (bytes.clone(), asked.clone());
    let wide = |length: usize| vec![FILL_U32; length + 2 * ZONE];
    let (mut lines, mut columns) = (wide(lines), wide(columns));
    let returned = made(
        &bytes[ZONE..ZONE + source.len()],
        &asked[ZONE..ZONE + offsets.len()],
        part(&mut lines),
        part(&mut columns),
    );
    let (lines, columns) = (untouched(&lines, FILL_U32)?, untouched(&columns, FILL_U32)?);
    (before == (bytes, asked)).then_some(Left { returned, lines, columns })
}

/// What lies between the red zones.
fn part<T>(numbers: &mut [T]) -> &mut [T] {
    let behind = numbers.len() - ZONE;
    &mut numbers[ZONE..behind]
}

/// The same, if these hold what they held.
fn untouched<T: Copy + PartialEq>(numbers: &[T], fill: T) -> Option<Vec<T>> {
    let (before, rest) = numbers.split_at(ZONE);
    let (inside, behind) = rest.split_at(rest.len() - ZONE);
    let untouched = before.iter().chain(behind).all(|number| *number == fill);
    untouched.then(|| inside.to_vec())
}

fn lent(slices: &mut Slices) -> Lent<'_> {
    Lent {
        counts: part(&mut slices.counts),
        token_kinds: part(&mut slices.token_kinds),
        token_ends: part(&mut slices.token_ends),
        events: part(&mut slices.events),
        messages: part(&mut slices.messages),
        starts: part(&mut slices.starts),
        ends: part(&mut slices.ends),
    }
}

/// The slices without their red zones, if these hold what they held.
fn inside(slices: &Slices) -> Option<Slices> {
    Some(Slices {
        counts: untouched(&slices.counts, FILL_U64)?,
        token_kinds: untouched(&slices.token_kinds, FILL_U16)?,
        token_ends: untouched(&slices.token_ends, FILL_U32)?,
        events: untouched(&slices.events, FILL_U16)?,
        messages: untouched(&slices.messages, FILL_U16)?,
        starts: untouched(&slices.starts, FILL_U32)?,
        ends: untouched(&slices.ends, FILL_U32)?,
    })
}

#[cfg(test)]
mod tests {
    use super::*;
    use crate::imitation::lines_into;

    /// A write on either side of each slice.
    const WRITES: [fn(&mut Slices); 14] = [
        |slices| slices.counts[ZONE - 1] = 0,
        |slices| slices.counts[ZONE + 3] = 0,
        |slices| slices.token_kinds[ZONE - 1] = 0,
        |slices| slices.token_kinds[ZONE + 3] = 0,
        |slices| slices.token_ends[ZONE - 1] = 0,
        |slices| slices.token_ends[ZONE + 3] = 0,
        |slices| slices.events[ZONE - 1] = 0,
        |slices| slices.events[ZONE + 3] = 0,
        |slices| slices.messages[ZONE - 1] = 0,
        |slices| slices.messages[ZONE + 3] = 0,
        |slices| slices.starts[ZONE - 1] = 0,
        |slices| slices.starts[ZONE + 3] = 0,
        |slices| slices.ends[ZONE - 1] = 0,
        |slices| slices.ends[ZONE + 3] = 0,
    ];

    #[test]
    fn a_written_red_zone_is_found() {
        let three = Rooms {
            counts: 3,
            token_kinds: 3,
            token_ends: 3,
            events: 3,
            messages: 3,
            starts: 3,
            ends: 3,
        };
        let filled = || Slices::filled(with_zones(three));
        assert_eq!(inside(&filled()), Some(Slices::filled(three)));
        for write in WRITES {
            let mut slices = filled();
            write(&mut slices);
            assert_eq!(inside(&slices), None);
        }
    }

    /// Writes 7 into the entry that stands so far from the start of a slice.
    fn write(numbers: &mut [u32], at: isize) {
        // SAFETY: a red zone stands before and behind, in the same allocation.
        unsafe { numbers.as_mut_ptr().offset(at).write_volatile(7) }
    }

    /// A write on either side of lines and of columns.
    const LINES_WRITES: [LinesCall; 4] = [
        |_, _, lines, _| wrote(lines, -1),
        |_, _, lines, _| wrote(lines, 2),
        |_, _, _, columns| wrote(columns, -1),
        |_, _, _, columns| wrote(columns, 3),
    ];

    fn wrote(numbers: &mut [u32], at: isize) -> u64 {
        write(numbers, at);
        0
    }

    #[test]
    fn a_red_zone_beside_lines_is_found() {
        let found = |made| call_lines(made, b"a\r", &[0, 2], [2, 3]);
        let right = Left { returned: 2, lines: vec![1, 2], columns: vec![1, 1, FILL_U32] };
        assert_eq!(found(lines_into), Some(right));
        for faulty in LINES_WRITES {
            assert_eq!(found(faulty), None);
        }
    }

    /// A call that looked behind the source would find no end of its CR, and one that looked before
    /// it no end of its LF.
    #[test]
    fn ends_stand_around_a_source() {
        let looks: LinesCall = |source, _, _, _| {
            // SAFETY: red zones stand before and behind, in the same allocation.
            let [before, behind] =
                unsafe { [*source.as_ptr().sub(1), *source.as_ptr().add(source.len())] };
            u64::from(before == b'\r' && behind == b'\n')
        };
        assert_eq!(call_lines(looks, b"\n\r", &[], [0, 0]).map(|left| left.returned), Some(1));
    }
}

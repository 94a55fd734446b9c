//! A message of which one byte is another one, as it comes to a new rank 1 of two: each byte, and each other value.

use crate::samples::MESSAGE;
use crate::two_steps::{Told, told_of_both};
use std::alloc::Global;
use std::process::Abort;

/// What becomes of the message.
#[derive(Clone, Copy)]
enum Fate {
    /// It is refused by this number.
    Refused(u8),
    /// It is taken as frame 0 of rank 0.
    Taken,
    /// The same, of rank 0 at a later incarnation.
    Newer,
    /// It is held, since it comes too early.
    Held,
}

/// A row: the first and the last place, the least and the greatest value, and what becomes of the message. Of the rows
/// that hold, the first one counts.
type Row = (usize, usize, u8, u8, Fate);

/// The rules of docs/FORMAT.md, byte by byte.
const ROWS: [Row; 22] = [
    // The magic, the version and the kind; an acknowledgement or a reset has another length.
    (0, 3, 0, 255, Fate::Refused(22)),
    (4, 4, 0, 255, Fate::Refused(23)),
    (5, 5, 2, 3, Fate::Refused(25)),
    (5, 5, 0, 255, Fate::Refused(24)),
    // The ranks, and the incarnations.
    (6, 9, 0, 255, Fate::Refused(27)),
    (10, 11, 0, 255, Fate::Newer),
    (12, 13, 0, 255, Fate::Refused(27)),
    // The length, the job and the number.
    (14, 15, 0, 255, Fate::Refused(25)),
    (16, 23, 0, 255, Fate::Refused(26)),
    (24, 30, 0, 255, Fate::Refused(31)),
    (31, 31, 1, 63, Fate::Held),
    (31, 31, 0, 255, Fate::Refused(31)),
    // The kind of the frame and the plane.
    (32, 33, 0, 255, Fate::Refused(30)),
    // The type: UINT32 and FLOAT32 are as wide as INT32.
    (34, 34, 7, 7, Fate::Taken),
    (34, 34, 10, 10, Fate::Taken),
    (34, 34, 0, 255, Fate::Refused(30)),
    (35, 35, 0, 255, Fate::Refused(30)),
    // The tag, which has 31 bits, and the context.
    (36, 36, 128, 255, Fate::Refused(30)),
    (36, 36, 0, 127, Fate::Taken),
    (37, 47, 0, 255, Fate::Taken),
    // The count and the elements.
    (48, 51, 0, 255, Fate::Refused(30)),
    (52, 63, 0, 255, Fate::Taken),
];

/// Whether a row holds of a value at a place.
fn holds(row: &Row, at: usize, value: u8) -> bool {
    let (first, last, least, greatest, _) = *row;
    first <= at && at <= last && least <= value && value <= greatest
}

/// What becomes of the message with this value at this place.
fn fate_of(at: usize, value: u8) -> Option<Fate> {
    let row = ROWS.iter().find(|row| holds(*row, at, value))?;
    Some(row.4)
}

/// Taken while rank 0 is known at this incarnation, with this next number and these bits.
fn taken(incarnation: u16, next: u64, held: u64) -> Told {
    Told::Taken {
        incarnation,
        next,
        held,
    }
}

/// What is told of the changed message, and of the message itself behind it.
fn wanted(at: usize, value: u8) -> Option<(Told, Told)> {
    let first = taken(0, 1, 0);
    Some(match fate_of(at, value)? {
        Fate::Refused(number) => (Told::Refused(number), first),
        // It has the same number, so what comes behind it is a frame that comes again.
        Fate::Taken => (first, first),
        Fate::Newer => (taken(newer(at, value), 1, 0), Told::Refused(28)),
        Fate::Held => (taken(0, 0, bit(value)), behind(value)),
    })
}

/// The incarnation of which this is the higher byte, at place 10, or the lower one.
fn newer(at: usize, value: u8) -> u16 {
    let high = if at == 10 { 256 } else { 1 };
    u16::from(value).wrapping_mul(high)
}

/// The bit of the frame that comes so many numbers behind the next one.
fn bit(distance: u8) -> u64 {
    1u64.wrapping_shl(u32::from(distance))
}

/// What is told of the message that comes behind the one of this number, which is held: where that is the next one, it
/// follows.
fn behind(number: u8) -> Told {
    if number == 1 {
        taken(0, 2, 0)
    } else {
        taken(0, 1, bit(number.wrapping_sub(1)))
    }
}

/// The message with this value at this place.
fn changed(at: usize, value: u8) -> Option<[u8; 64]> {
    let mut bytes = MESSAGE;
    let place = bytes.get_mut(at)?;
    *place = value;
    Some(bytes)
}

/// The message with each other value at this place.
fn assert_place(rt: &impl Abort, alloc: Global, at: usize) {
    for value in 0..=255u8 {
        if MESSAGE.get(at) == Some(&value) {
            continue;
        }
        let found = match changed(at, value) {
            Some(bytes) => Some(told_of_both(alloc, 1, &bytes, &MESSAGE)),
            None => None,
        };
        assert_eq!(rt; found, wanted(at, value), "byte {at} is {value}");
    }
}

#[test]
fn each_other_byte_of_a_header_is_taken_or_refused_by_the_rules(rt: HostRuntime) {
    for at in 0..32 {
        assert_place(&rt, rt.alloc(), at);
    }
}

#[test]
fn each_other_byte_of_a_message_is_taken_or_refused_by_the_rules(rt: HostRuntime) {
    for at in 32..64 {
        assert_place(&rt, rt.alloc(), at);
    }
}

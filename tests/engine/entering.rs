//! Entering collectives, and what a rank is told then. What owns memory is dropped in generic code, since each drop in
//! place is followed anew.

use crate::pairs::copies;
use datatypes::Buffer;
use engine::{Block, Call, Ending, Engine, Entry, Reply};
use std::alloc::Global;

/// What a rank is told of the collective that it enters.
#[derive(Clone, Copy, Debug, PartialEq, Eq)]
pub(crate) enum Told {
    /// It is blocked.
    Blocked,
    /// It left with nothing.
    Left,
    /// It left with so many elements, and which the first, the second and the last are.
    Gets(usize, [Option<u64>; 3]),
    /// It left with this error.
    Error(u8),
    /// The call was refused, and so many elements came back.
    Refused(u8, Option<usize>),
    /// Anything else.
    Other,
}

/// So many bytes of one value, as a rank hands them in.
pub(crate) fn block(alloc: Global, number: u8, count: usize) -> Option<Block> {
    Block::new(copies(alloc, number, count)?).ok()
}

/// With which elements a rank left.
fn told_elements(all: &Buffer) -> Told {
    let last = all.len().wrapping_sub(1);
    Told::Gets(all.len(), [all.get(0), all.get(1), all.get(last)])
}

/// With what a rank left.
pub(crate) fn told_by_ending(ending: &Ending) -> Told {
    match ending {
        Ending::Left(None) => Told::Left,
        Ending::Left(Some(all)) => told_elements(all),
        Ending::Comm(_) => Told::Other,
        Ending::Replaced => Told::Error(11),
        Ending::Mismatch => Told::Error(12),
    }
}

/// How many elements an entry hands in.
fn count_in(call: &Call) -> Option<usize> {
    match call {
        Call::Enter(_, entry) => match entry.elements() {
            Some(all) => Some(all.len()),
            None => None,
        },
        _ => None,
    }
}

fn told_by_reply(reply: &Reply) -> Told {
    match reply {
        Reply::Blocked => Told::Blocked,
        Reply::Left(ending) => told_by_ending(ending),
        Reply::Refused(refused, call) => Told::Refused(refused.number(), count_in(call)),
        _ => Told::Other,
    }
}

/// A rank enters a collective of world.
pub(crate) fn enter(engine: &mut Engine, entry: Entry) -> Told {
    let reply = engine.call(Call::Enter(Some(0), entry));
    let told = told_by_reply(&reply);
    drop(reply);
    told
}

//! Steps of a world, and what is told of each, as plain values.

use datatypes::Buffer;
use engine::{Call, Completion, Ending, Region, Reply, Send};
use std::alloc::Global;
use vocabulary::{BasicType, Mode, Source};
use world::{Event, HistoryEntry, World};

/// The place of a rank's first communicator.
pub(crate) const WORLD: Option<usize> = Some(0);

/// With what a collective ended.
#[derive(Clone, Copy, Debug, PartialEq, Eq)]
pub(crate) enum End {
    /// The rank left with nothing.
    Left,
    /// It left with the communicator at this place, or with MPI_COMM_NULL.
    Comm(Option<usize>),
    /// Error 12.
    Mismatch,
    /// With elements, or error 11.
    Other,
}

/// What is told of an event.
#[derive(Clone, Copy, Debug, PartialEq, Eq)]
pub(crate) enum Told {
    /// Nothing: a datagram, a tick or a restart that completes no call.
    Nothing,
    /// The call is blocked.
    Blocked,
    /// A collective ended so, at once or for a rank that was blocked in it.
    Ended(End),
    /// The call, or one that was blocked, is answered otherwise.
    Answered,
    /// The event is refused by this number.
    Refused(u8),
}

/// With what a collective ended.
fn ended(ending: &Ending) -> Told {
    Told::Ended(match ending {
        Ending::Left(None) => End::Left,
        Ending::Comm(place) => End::Comm(*place),
        Ending::Mismatch => End::Mismatch,
        _ => End::Other,
    })
}

/// What is told of a reply.
fn replied(reply: &Reply) -> Told {
    match reply {
        Reply::Blocked => Told::Blocked,
        Reply::Left(ending) => ended(ending),
        _ => Told::Answered,
    }
}

/// What the history holds of an event: its reply, or the completion that it brought.
fn told_in(entry: &HistoryEntry) -> Told {
    match (&entry.reply, &entry.completion) {
        (Some(reply), _) => replied(reply),
        (None, Some(Completion::Collective(ending))) => ended(ending),
        (None, Some(_)) => Told::Answered,
        (None, None) => Told::Nothing,
    }
}

/// What is told at a place of the history.
fn told_at(world: &World, place: usize) -> Told {
    match world.history().get(place) {
        Some(entry) => told_in(entry),
        None => Told::Nothing,
    }
}

/// One event, and what is told of it.
fn step(world: &mut World, event: Event) -> Told {
    match world.step(event) {
        Ok(stepped) => told_at(world, stepped.place),
        Err(failed) => Told::Refused(failed.refused.number()),
    }
}

/// A rank enters a collective of its communicator at this place.
pub(crate) fn enter(
    world: &mut World,
    rank: u16,
    comm: Option<usize>,
    entry: engine::Entry,
) -> Told {
    step(world, Event::Call(rank, Call::Enter(comm, entry)))
}

/// A datagram is delivered.
pub(crate) fn deliver(world: &mut World, number: usize) -> Told {
    step(world, Event::Deliver(number))
}

/// A rank's clock says so many milliseconds.
pub(crate) fn tick(world: &mut World, rank: u16, now: u64) -> Told {
    step(world, Event::Tick(rank, now))
}

/// An element.
fn one_element(alloc: Global, value: u8) -> Option<Region> {
    let mut elements = Buffer::new(alloc, BasicType::Int32);
    elements.push_copies(u64::from(value), 1).ok()?;
    Some(Region::whole(elements))
}

/// A rank starts a send of this one element to a rank of its communicator.
pub(crate) fn send(
    alloc: Global,
    world: &mut World,
    rank: u16,
    comm: Option<usize>,
    to: u16,
    tag: u32,
    value: u8,
) -> Option<Told> {
    let call = Call::Isend(Send {
        mode: Mode::Standard,
        comm,
        target: Source::Rank(to),
        tag: Some(tag),
        from: one_element(alloc, value)?,
    });
    Some(step(world, Event::Call(rank, call)))
}

/// Whether these digits spell a datagram's bytes.
fn is_spelled(alloc: Global, world: &World, number: usize, digits: &str) -> bool {
    match world.datagram(number) {
        Some((_rank, bytes)) => match hex::encode(alloc, bytes) {
            Ok(text) => text.as_str() == digits,
            Err(_) => false,
        },
        None => false,
    }
}

/// Whether each of these datagrams, by its number, is spelled by the digits beside it.
pub(crate) fn all_are_spelled(alloc: Global, world: &World, rows: &[(usize, &str)]) -> bool {
    rows.iter()
        .all(|row| is_spelled(alloc, world, row.0, row.1))
}

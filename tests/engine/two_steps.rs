//! What a rank of two makes of bytes that come to it, as plain values.

use datagram::Content;
use engine::{Engine, Place, Refusal};
use std::alloc::Global;
use vocabulary::{Endpoint, MessageLimit};

/// What is told of bytes that came.
#[derive(Clone, Copy, Debug, PartialEq, Eq)]
pub(crate) enum Told {
    /// They were refused by this number, and nothing can be seen to have changed.
    Refused(u8),
    /// They were taken and acknowledged.
    Taken {
        /// The incarnation at which the other rank is known then.
        incarnation: u16,
        /// The number that the acknowledgement names as the next one.
        next: u64,
        /// Its bits, of the frames that are held.
        held: u64,
    },
    /// They were taken, the other rank is known at this incarnation then, and nothing goes out.
    Learned(u16),
    /// Anything else.
    Other,
}

/// A rank of two at its start, in job 1.
fn rank_of_two(alloc: Global, rank: u16) -> Result<Engine, Refusal> {
    let place = Place {
        endpoint: Endpoint {
            rank,
            incarnation: 0,
        },
        size: 2,
        job: 1,
        message_limit: MessageLimit::least(),
    };
    Engine::new(alloc, place)
}

/// The number and the bits of an acknowledgement that goes to a rank at an incarnation.
fn acknowledgement_in(bytes: &[u8], incarnation: u16) -> Option<(u64, u64)> {
    let datagram = datagram::read(bytes).ok()?;
    match datagram.content {
        Content::Ack(held) if datagram.header.target.incarnation == incarnation => {
            Some((datagram.header.sequence, held))
        }
        _ => None,
    }
}

/// What goes out behind bytes that were taken, while the other rank is known at this incarnation.
fn told_by_emission(engine: &mut Engine, other: u16, incarnation: u16) -> Told {
    let emitted = engine.take_out();
    match emitted.as_slice() {
        [] => Told::Learned(incarnation),
        [(target, bytes)] if *target == other => {
            match acknowledgement_in(bytes.as_slice(), incarnation) {
                Some((next, held)) => Told::Taken {
                    incarnation,
                    next,
                    held,
                },
                None => Told::Other,
            }
        }
        _ => Told::Other,
    }
}

/// What is told of bytes that were taken.
fn told_by_taken(engine: &mut Engine, other: u16) -> Told {
    match engine.session(other) {
        Some(session) if session.idle => told_by_emission(engine, other, session.incarnation),
        _ => Told::Other,
    }
}

/// Whether an engine shows nothing but what it showed before, when the other rank was known at this incarnation.
fn is_unchanged(engine: &mut Engine, other: u16, incarnation: u16) -> bool {
    let session = engine.session(other);
    let knows = matches!(&session, Some(it) if it.idle && it.incarnation == incarnation);
    let is_silent = engine.take_completion().is_none();
    let emitted = engine.take_out();
    knows && is_silent && emitted.is_empty() && engine.is_idle()
}

/// What an engine that sends nothing makes of bytes.
fn hand_over(engine: &mut Engine, bytes: &[u8]) -> Told {
    let rank = engine.place().endpoint.rank;
    let other = if rank == 0 { 1 } else { 0 };
    let Some(session) = engine.session(other) else {
        return Told::Other;
    };
    match engine.on_datagram(bytes) {
        Ok(()) => told_by_taken(engine, other),
        Err(refused) if is_unchanged(engine, other, session.incarnation) => {
            Told::Refused(refused.number())
        }
        Err(_) => Told::Other,
    }
}

/// What a new rank of two makes of bytes, and then of others.
pub(crate) fn told_of_both(alloc: Global, rank: u16, bytes: &[u8], then: &[u8]) -> (Told, Told) {
    match rank_of_two(alloc, rank) {
        Ok(mut engine) => {
            let first = hand_over(&mut engine, bytes);
            let second = hand_over(&mut engine, then);
            drop(engine);
            (first, second)
        }
        Err(_) => (Told::Other, Told::Other),
    }
}

//! A rank that holds communicators, enters collectives and is told of them. Each step answers plain values.

use communicators::{
    Address, CollectiveRefusal, CommunicatorFault, Communicators, Ending, Entry,
    entries_are_allowed,
};
use payload::{Choice, NewGroup, Payload, PayloadContent, Record};
use std::alloc::Global;
use vocabulary::{Endpoint, MessageLimit};

/// With what a collective ends, as a plain value.
#[derive(Clone, Copy, Debug, PartialEq, Eq)]
pub(crate) enum End {
    /// Left.
    Left,
    /// Left with the communicator at this place, or MPI_COMM_NULL.
    Comm(Option<usize>),
    /// Error 11.
    Replaced,
    /// Error 12.
    Mismatch,
}

/// The plain value of an ending.
pub(crate) fn end_of(ending: Option<Ending>) -> Option<End> {
    match ending? {
        Ending::Left(_) => Some(End::Left),
        Ending::Comm(place) => Some(End::Comm(place)),
        Ending::Replaced => Some(End::Replaced),
        Ending::Mismatch => Some(End::Mismatch),
    }
}

/// Why a step is refused.
#[derive(Clone, Copy, Debug, PartialEq, Eq)]
pub(crate) enum Refused {
    /// What the rank enters with breaks a rule.
    Entry(CommunicatorFault),
    /// It can't be entered, or the message can't be taken in.
    Step(CollectiveRefusal),
}

/// How many messages go out, and the ending of the collective that the rank leaves; or why the step is refused.
pub(crate) type Step = Result<(usize, Option<End>), Refused>;

/// A split in which all have one colour and one key.
pub(crate) fn split() -> Entry {
    Entry::Split(Choice {
        colour: Some(0),
        key: 0,
    })
}

/// The message by which a split gives the communicator of ranks 1 and 0 of world, in this order.
pub(crate) const TURNED: Payload<'static> = Payload {
    entered: Record::Split,
    part: PayloadContent::NewGroup(NewGroup {
        context: 9,
        ranks: &[0, 1, 0, 0],
    }),
};

/// The communicators of a rank of a job with so many ranks, none of which was started anew.
pub(crate) fn rank_of(alloc: Global, rank: u16, size: u16) -> Option<Communicators> {
    let own = Endpoint {
        rank,
        incarnation: 0,
    };
    Communicators::new(alloc, own, size).ok()
}

/// The rank enters a collective of the communicator at a place, where no rank is known to be replaced.
pub(crate) fn enter(rank: &mut Communicators, place: usize, entry: Entry) -> Step {
    if let Some(fault) = rank.fault_of_entry(
        false,
        &[],
        MessageLimit::least(),
        Some(place),
        &entry,
    ) {
        return Err(Refused::Entry(fault));
    }
    // An entry that breaks no rule can be made ready.
    entries_are_allowed();
    match rank.prepare_entry(place, entry) {
        Ok(ready) => {
            let told = ready.messages().len();
            Ok((told, end_of(rank.enter(ready))))
        }
        Err(back) => Err(Refused::Step(back.refused)),
    }
}

/// A message of rank 0 of the first collective on world comes to the rank.
pub(crate) fn arrive(rank: &mut Communicators, payload: Payload<'_>) -> Step {
    arrive_from(rank, 0, payload)
}

/// A message of another rank of the first collective on world comes to the rank.
pub(crate) fn arrive_from(rank: &mut Communicators, sender: u16, payload: Payload<'_>) -> Step {
    let address = Address {
        sender: Endpoint {
            rank: sender,
            incarnation: 0,
        },
        context: 0,
        number: 0,
    };
    match rank.prepare_message(None, address, payload) {
        Ok(ready) => {
            let told = ready.messages().len();
            Ok((told, end_of(rank.on_message(ready))))
        }
        Err(refused) => Err(Refused::Step(refused)),
    }
}

/// Rank 1 of two gets the communicator of ranks 1 and 0 at place 2; whether it did.
pub(crate) fn turn(rank: &mut Communicators) -> bool {
    enter(rank, 0, split()).is_ok()
        && arrive(rank, TURNED).is_ok()
        && !rank.has_no_communicator(Some(2))
}

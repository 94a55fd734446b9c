//! The queues as plain lists, which are searched from their oldest element on: what `Queues` does, said by a program.

use match_queues::{Arrival, Message, PostedReceive, is_former, names};
use std::alloc::Global;
use std::collections::VecDeque;
use vocabulary::OutOfMemory;

/// What a rank has posted and not yet received, and what came and was not yet wanted, as two lists. The oldest stand
/// first. Each call does what it does at `Queues`, but that it searches for itself what it takes.
#[derive(Drop)]
pub struct PlainQueues {
    posted: VecDeque<PostedReceive>,
    unexpected: VecDeque<Message>,
}

fn place_of_message(receive: &PostedReceive, messages: &VecDeque<Message>) -> Option<usize> {
    messages.iter().position(|message| receive.accepts(message))
}

fn place_of_receive(message: &Message, receives: &VecDeque<PostedReceive>) -> Option<usize> {
    receives.iter().position(|receive| receive.accepts(message))
}

fn receive_at(receives: &VecDeque<PostedReceive>, place: Option<usize>) -> Option<PostedReceive> {
    match place {
        Some(place) => receives.get(place).copied(),
        None => None,
    }
}

/// The place of the oldest receive that accepts the message and does not name the rank.
fn place_of_other(message: &Message, receives: &VecDeque<PostedReceive>, rank: u16) -> Option<usize> {
    receives.iter().position(|receive| !names(receive, rank) && receive.accepts(message))
}

fn place_of_request(request: usize, receives: &VecDeque<PostedReceive>) -> Option<usize> {
    receives
        .iter()
        .position(|receive| receive.request == request)
}

/// Drops the receives that name the rank.
fn drop_receives(posted: &mut VecDeque<PostedReceive>, rank: u16) {
    posted.retain(|receive| !names(receive, rank));
}

/// Drops the messages from incarnations of the rank before this one.
fn drop_messages(unexpected: &mut VecDeque<Message>, rank: u16, incarnation: u16) {
    unexpected.retain(|message| !is_former(message, rank, incarnation));
}

/// The keys of the receives that name the rank, or want of memory.
fn keys_among(
    alloc: Global,
    receives: &VecDeque<PostedReceive>,
    rank: u16,
) -> Result<Vec<usize>, OutOfMemory> {
    match receives
        .iter()
        .filter(|receive| names(receive, rank))
        .map(|receive| receive.request)
        .collect(alloc)
    {
        Ok(keys) => Ok(keys),
        Err(_) => Err(OutOfMemory {}),
    }
}

impl PlainQueues {
    /// Two empty queues. It takes no memory.
    pub fn new(alloc: Global) -> Self
    {
        PlainQueues {
            posted: VecDeque::new(alloc),
            unexpected: VecDeque::new(alloc),
        }
    }

    /// Makes room for one more receive. Where there was none, it may find that there is no memory. Nothing else
    /// changes.
    pub fn reserve_receive(&mut self) -> Result<(), OutOfMemory>
    {
        self.posted.reserve(1).map_err(|_| OutOfMemory {})
    }

    /// Makes room for one more message. Where there was none, it may find that there is no memory. Nothing else
    /// changes.
    pub fn reserve_message(&mut self) -> Result<(), OutOfMemory>
    {
        self.unexpected.reserve(1).map_err(|_| OutOfMemory {})
    }

    /// The oldest posted receive that accepts the message, which stays posted.
    pub fn receive_for(&self, message: &Message) -> Option<PostedReceive>
    {
        receive_at(&self.posted, place_of_receive(message, &self.posted))
    }

    /// The oldest posted receive that accepts the message, among those that would be left if what names the rank were
    /// dropped. It stays posted.
    pub fn receive_for_unnamed(&self, message: &Message, rank: u16) -> Option<PostedReceive>
    {
        receive_at(&self.posted, place_of_other(message, &self.posted, rank))
    }

    /// The oldest unexpected message that the receive accepts, which stays where it is: what a probe finds (MPI 3.1,
    /// 3.8.1).
    pub fn message_for(&self, receive: &PostedReceive) -> Option<&Message>
    {
        match place_of_message(receive, &self.unexpected) {
            Some(place) => self.unexpected.get(place),
            None => None,
        }
    }

    /// Takes the oldest unexpected message that the receive accepts, or posts the receive behind the others, for which
    /// there is room.
    pub fn post(&mut self, receive: PostedReceive) -> Option<Message>
    {
        match place_of_message(&receive, &self.unexpected) {
            Some(place) => self.unexpected.remove(place),
            None => {
                self.posted.push_back_reserved(receive);
                None
            }
        }
    }

    /// Takes the oldest unexpected message that the receive accepts out of matching: no receive finds it from now on.
    /// Where none is accepted, nothing changes. No receive is posted, and it takes no memory (MPI 3.1, 3.8.2).
    pub fn take(&mut self, receive: &PostedReceive) -> Option<Message>
    {
        match place_of_message(receive, &self.unexpected) {
            Some(found) => self.unexpected.remove(found),
            None => None,
        }
    }

    /// Gives the message to the oldest posted receive that accepts it, or keeps it behind the others, for which there
    /// is room.
    pub fn arrive(&mut self, message: Message) -> Arrival
    {
        match place_of_receive(&message, &self.posted) {
            Some(place) => Arrival::Matched(self.posted.remove(place).unwrap(), message),
            None => {
                self.unexpected.push_back_reserved(message);
                Arrival::Kept
            }
        }
    }

    /// Removes the receive that was posted for this request, and no other, and tells whether one was. It takes no
    /// memory (MPI 3.1, 3.8.4).
    pub fn cancel(&mut self, request: usize) -> bool
    {
        match place_of_request(request, &self.posted) {
            Some(place) => {
                let _cancelled = self.posted.remove(place);
                true
            }
            None => false,
        }
    }

    /// The keys of the receives that name the rank, the oldest first; or want of memory. One from any source names
    /// none.
    pub fn keys_naming(&self, alloc: Global, rank: u16) -> Result<Vec<usize>, OutOfMemory>
    {
        keys_among(alloc, &self.posted, rank)
    }

    /// Drops the receives that name the rank, and the messages from its incarnations before this one. It takes no
    /// memory.
    ///
    /// MPI 3.1 defines no restart of a rank; what becomes of these is this project's own.
    pub fn drop_from(&mut self, rank: u16, incarnation: u16)
    {
        drop_receives(&mut self.posted, rank);
        drop_messages(&mut self.unexpected, rank, incarnation);
    }
}

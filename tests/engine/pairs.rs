//! Making engines of a job of two ranks, and joining them. Helpers take engines by `&mut` and answer plain values, or
//! nothing where a step failed.

use datatypes::Buffer;
use engine::{Engine, Place, Refusal};
use std::alloc::Global;
use vocabulary::{BasicType, Endpoint, MessageLimit};

/// A rank of two at an incarnation, whose messages have the limit of scripts.
pub fn rank_of_two(alloc: Global, rank: u16, incarnation: u16) -> Result<Engine, Refusal> {
    rank_with_limit(alloc, Endpoint { rank, incarnation }, MessageLimit::least())
}

/// A rank of two, whose messages have this limit.
pub fn rank_with_limit(
    alloc: Global,
    endpoint: Endpoint,
    message_limit: MessageLimit,
) -> Result<Engine, Refusal> {
    let place = Place {
        endpoint,
        size: 2,
        job: 1,
        message_limit,
    };
    Engine::new(alloc, place)
}

fn add_rank(alloc: Global, ranks: &mut Vec<Engine>, rank: u16, incarnation: u16) -> Option<()> {
    ranks.push(rank_of_two(alloc, rank, incarnation).ok()?).ok()
}

/// Ranks 0 and 1 at these incarnations.
pub fn two_ranks(alloc: Global, first: u16, second: u16) -> Option<Vec<Engine>> {
    let mut ranks = Vec::new(alloc);
    add_rank(alloc, &mut ranks, 0, first)?;
    add_rank(alloc, &mut ranks, 1, second)?;
    Some(ranks)
}

/// So many bytes of one value.
pub fn copies(alloc: Global, number: u8, count: usize) -> Option<Buffer> {
    let mut elements = Buffer::new(alloc, BasicType::Uint8);
    elements.push_copies(u64::from(number), count).ok()?;
    Some(elements)
}

/// Each datagram that one engine emitted comes to another; how many there were.
pub fn deliver(from: &mut Engine, to: &mut Engine) -> Option<usize> {
    let emitted = from.take_out();
    for (_target, bytes) in emitted.as_slice() {
        to.on_datagram(bytes.as_slice()).ok()?;
    }
    Some(emitted.len())
}

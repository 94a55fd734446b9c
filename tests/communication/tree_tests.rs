//! What a rank inside a tree tells: rank 2 of four, which stands below rank 0 and above rank 3.

use crate::ranks::{End, Step, arrive_from, enter, rank_of};
use communicators::{Block, Communicators, Entry};
use datatypes::Buffer;
use payload::{Direction, Elements, Payload, PayloadContent, Record, Rooted};
use std::alloc::Global;
use vocabulary::{BasicType, Operation};

/// No elements, and rank 0 as their root.
const ROOTED: Rooted = Rooted {
    elements: Elements {
        basic: BasicType::Int8,
        count: 0,
    },
    root: 0,
};

/// A block of no elements.
fn no_elements(alloc: Global) -> Option<Block> {
    Block::new(Buffer::new(alloc, BasicType::Int8)).ok()
}

/// The message of a barrier in this direction.
fn barrier(way: Direction) -> Payload<'static> {
    Payload {
        entered: Record::Barrier,
        part: PayloadContent::Nothing(way),
    }
}

/// The message of a collective that moves elements, of which there are none.
fn elements(entered: Record, way: Direction) -> Payload<'static> {
    Payload {
        entered,
        part: PayloadContent::Elements(way, &[]),
    }
}

/// The message of a rank that found a difference in a copy.
const DIFFERENCE: Payload<'static> = Payload {
    entered: Record::Dup,
    part: PayloadContent::RecordsDiffer,
};

/// What entering on world gives, and what a message of another rank gives then.
fn enter_and_hear(
    rank: &mut Communicators,
    entry: Entry,
    sender: u16,
    payload: Payload<'_>,
) -> [Step; 2] {
    [enter(rank, 0, entry), arrive_from(rank, sender, payload)]
}

/// What a barrier gives, then the word of the rank below, and then the answer of the one above.
fn meet(rank: &mut Communicators) -> ([Step; 2], Step) {
    let word = barrier(Direction::TowardsRoot);
    let steps = enter_and_hear(rank, Entry::Barrier, 3, word);
    (steps, arrive_from(rank, 0, barrier(Direction::FromRoot)))
}

#[test]
fn a_barrier_goes_up_and_down(rt: HostRuntime) {
    let mut rank = rank_of(rt.alloc(), 2, 4).expect(&rt, "a rank");
    assert_eq!(rt;
        meet(&mut rank),
        ([Ok((0, None)), Ok((1, None))], Ok((1, Some(End::Left))))
    );
}

#[test]
fn a_broadcast_is_told_on(rt: HostRuntime) {
    let mut rank = rank_of(rt.alloc(), 2, 4).expect(&rt, "a rank");
    let entry = Entry::Bcast(0, no_elements(rt.alloc()).expect(&rt, "a block"));
    let data = elements(Record::Bcast(ROOTED), Direction::FromRoot);
    assert_eq!(rt;
        enter_and_hear(&mut rank, entry, 0, data),
        [Ok((0, None)), Ok((1, Some(End::Left)))]
    );
}

/// A reduction of no elements to rank 0.
fn reduction(alloc: Global) -> Option<Entry> {
    Some(Entry::Reduce(Operation::Sum, 0, no_elements(alloc)?))
}

#[test]
fn a_reduction_is_left_with_the_word_of_those_below(rt: HostRuntime) {
    let mut rank = rank_of(rt.alloc(), 2, 4).expect(&rt, "a rank");
    let entry = reduction(rt.alloc()).expect(&rt, "a reduction");
    let word = elements(
        Record::Reduce(Operation::Sum, ROOTED),
        Direction::TowardsRoot,
    );
    assert_eq!(rt;
        enter_and_hear(&mut rank, entry, 3, word),
        [Ok((0, None)), Ok((1, Some(End::Left)))]
    );
}

#[test]
fn a_difference_is_told_on_in_a_reduction(rt: HostRuntime) {
    let mut rank = rank_of(rt.alloc(), 2, 4).expect(&rt, "a rank");
    let entry = reduction(rt.alloc()).expect(&rt, "a reduction");
    assert_eq!(rt;
        enter_and_hear(&mut rank, entry, 3, DIFFERENCE),
        [Ok((0, None)), Ok((1, Some(End::Mismatch)))]
    );
}

#[test]
fn a_difference_is_not_told_on_in_a_barrier(rt: HostRuntime) {
    let mut rank = rank_of(rt.alloc(), 2, 4).expect(&rt, "a rank");
    assert_eq!(rt;
        enter_and_hear(&mut rank, Entry::Barrier, 3, DIFFERENCE),
        [Ok((0, None)), Ok((0, Some(End::Mismatch)))]
    );
}

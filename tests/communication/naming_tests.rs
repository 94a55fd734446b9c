//! Whom a call names, and what a rank is told of its communicators.

use crate::ranks::{enter, rank_of, turn};
use communicators::{
    CommunicatorComparison, Communicators, Entry, FactRef, Question, calls_are_routed,
};
use vocabulary::Source;

/// The number of the context, whom the call names as a rank of world, and whether the group has just these ranks, where
/// the route has one.
type Told = Option<(u64, Source, Option<bool>)>;

/// The route of a call on the communicator at a place that names this rank.
fn route(rank: &Communicators, place: usize, named: Source, ranks: &[u16]) -> Told {
    match rank.route(&[0, 0], Some(place), named) {
        Some(route) => match route.group {
            Some(group) => Some((route.context, route.named, Some(group == ranks))),
            None => Some((route.context, route.named, None)),
        },
        None => None,
    }
}

/// The routes on world, on self of its rank and of one that it lacks, on the communicator of ranks 1 and 0, and on
/// none.
fn routes(rank: &mut Communicators) -> (bool, [Told; 5]) {
    let turned = turn(rank);
    let routes = [
        route(rank, 0, Source::Rank(0), &[]),
        route(rank, 1, Source::Rank(0), &[1]),
        route(rank, 1, Source::Rank(1), &[1]),
        route(rank, 2, Source::Rank(1), &[1, 0]),
        route(rank, 3, Source::Any, &[]),
    ];
    (turned, routes)
}

#[test]
fn calls_go_by_their_routes(rt: HostRuntime) {
    let mut rank = rank_of(rt.alloc(), 1, 2).expect(&rt, "a rank");
    let alone = 0x0001_0000_0000_0001;
    let told = [
        Some((0, Source::Rank(0), None)),
        Some((alone, Source::Rank(1), Some(true))),
        Some((alone, Source::Null, Some(true))),
        Some((9, Source::Rank(0), Some(true))),
        None,
    ];
    calls_are_routed();
    assert_eq!(rt; routes(&mut rank), (true, told));
}

/// The number that answers a question about the communicator at a place.
fn number(rank: &Communicators, place: usize, question: Question) -> Option<usize> {
    match rank.fact(Some(place), question) {
        Some(FactRef::Number(number)) => Some(number),
        _ => None,
    }
}

/// Whether the communicator at a place is told to have just these ranks of world.
fn has_ranks(rank: &Communicators, place: usize, ranks: &[u16]) -> bool {
    match rank.fact(Some(place), Question::Group) {
        Some(FactRef::Ranks(told)) => told == ranks,
        _ => false,
    }
}

/// Its ranks in world, in the communicator of ranks 1 and 0 and in none, how many ranks world has, and whether the
/// communicator has these.
fn numbers(rank: &mut Communicators) -> (bool, [Option<usize>; 4], bool) {
    let turned = turn(rank);
    let numbers = [
        number(rank, 0, Question::Rank),
        number(rank, 2, Question::Rank),
        number(rank, 3, Question::Rank),
        number(rank, 0, Question::Size),
    ];
    (turned, numbers, has_ranks(rank, 2, &[1, 0]))
}

#[test]
fn a_rank_knows_its_place_in_a_communicator(rt: HostRuntime) {
    let mut rank = rank_of(rt.alloc(), 1, 2).expect(&rt, "a rank");
    assert_eq!(rt;
        numbers(&mut rank),
        (true, [Some(1), Some(0), None, Some(2)], true)
    );
}

/// How the communicators at two places compare.
fn compared(rank: &Communicators, place: usize, other: usize) -> Option<CommunicatorComparison> {
    match rank.fact(Some(place), Question::Compare(Some(other))) {
        Some(FactRef::Compares(comparison)) => Some(comparison),
        _ => None,
    }
}

/// How world compares with itself, self with a copy, world with the communicator of ranks 1 and 0, and world with self.
fn comparisons(rank: &mut Communicators) -> (bool, [Option<CommunicatorComparison>; 4]) {
    let is_ready = turn(rank) && enter(rank, 1, Entry::Dup).is_ok();
    let answers = [
        compared(rank, 0, 0),
        compared(rank, 1, 3),
        compared(rank, 0, 2),
        compared(rank, 0, 1),
    ];
    (is_ready, answers)
}

#[test]
fn communicators_are_compared(rt: HostRuntime) {
    let mut rank = rank_of(rt.alloc(), 1, 2).expect(&rt, "a rank");
    let answers = [
        Some(CommunicatorComparison::Ident),
        Some(CommunicatorComparison::Congruent),
        Some(CommunicatorComparison::Similar),
        Some(CommunicatorComparison::Unequal),
    ];
    assert_eq!(rt; comparisons(&mut rank), (true, answers));
}

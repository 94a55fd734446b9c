//! The rules that a call breaks by its communicator.

use crate::ranks::{enter, rank_of, turn};
use communicators::{CommunicatorFault, Communicators, Entry, Question};
use vocabulary::{MessageLimit, Source};

/// Whether a communicator is missing at each of these places, and at none.
fn lacking(rank: &Communicators) -> [bool; 4] {
    [
        rank.has_no_communicator(Some(0)),
        rank.has_no_communicator(Some(1)),
        rank.has_no_communicator(Some(2)),
        rank.has_no_communicator(None),
    ]
}

#[test]
fn a_rank_begins_with_world_and_self(rt: HostRuntime) {
    let rank = rank_of(rt.alloc(), 1, 2).expect(&rt, "a rank");
    assert_eq!(rt; lacking(&rank), [false, false, true, true]);
}

/// Whether world has no such rank, and nobody that it names was replaced.
fn is_missing(rank: &Communicators, named: Source) -> Option<bool> {
    let route = rank.route(&[0, 0], Some(0), named)?;
    Some(route.is_beyond && !route.is_replaced)
}

#[test]
fn ranks_behind_the_last_are_missing(rt: HostRuntime) {
    let rank = rank_of(rt.alloc(), 1, 2).expect(&rt, "a rank");
    let answers = [
        is_missing(&rank, Source::Any),
        is_missing(&rank, Source::Null),
        is_missing(&rank, Source::Rank(1)),
        is_missing(&rank, Source::Rank(2)),
    ];
    assert_eq!(rt;
        answers,
        [Some(false), Some(false), Some(false), Some(true)]
    );
}

/// Whether the member that a call on a communicator names was replaced.
fn names_replaced(
    rank: &Communicators,
    known: &[u16],
    place: usize,
    named: Source,
) -> Option<bool> {
    let route = rank.route(known, Some(place), named)?;
    Some(route.is_replaced)
}

/// Rank 0 of world is known at incarnation 1: whether it is replaced where world and the communicator of ranks 1 and 0
/// name it, where the latter names rank 1, and for collectives of world, of self and of the latter.
fn replaced(rank: &mut Communicators) -> (bool, [Option<bool>; 3], [bool; 3]) {
    let turned = turn(rank);
    let known = [1u16, 0].as_slice();
    let named = [
        names_replaced(rank, known, 0, Source::Rank(0)),
        names_replaced(rank, known, 2, Source::Rank(1)),
        names_replaced(rank, known, 2, Source::Rank(0)),
    ];
    let collectives = [
        rank.has_replaced(known, Some(0)),
        rank.has_replaced(known, Some(1)),
        rank.has_replaced(known, Some(2)),
    ];
    (turned, named, collectives)
}

#[test]
fn a_replaced_member_counts_off_world_and_in_collectives(rt: HostRuntime) {
    let mut rank = rank_of(rt.alloc(), 1, 2).expect(&rt, "a rank");
    assert_eq!(rt;
        replaced(&mut rank),
        (
            true,
            [Some(false), Some(true), Some(false)],
            [true, false, true]
        )
    );
}

/// What a barrier on world breaks where rank 0 is known at this incarnation.
fn barrier(rank: &Communicators, is_blocked: bool, incarnation: u16) -> Option<CommunicatorFault> {
    rank.fault_of_entry(
        is_blocked,
        &[incarnation, 0],
        MessageLimit::least(),
        Some(0),
        &Entry::Barrier,
    )
}

/// What an entry breaks: blocked on requests, with no communicator, with a member that was replaced, and with none of
/// these; and then in a collective.
fn entries(
    rank: &mut Communicators,
) -> (
    [Option<CommunicatorFault>; 4],
    bool,
    Option<CommunicatorFault>,
) {
    let faults = [
        barrier(rank, true, 1),
        rank.fault_of_entry(false, &[1, 0], MessageLimit::least(), Some(2), &Entry::Dup),
        barrier(rank, false, 1),
        barrier(rank, false, 0),
    ];
    let entered = enter(rank, 0, Entry::Barrier).is_ok();
    (faults, entered, barrier(rank, false, 1))
}

#[test]
fn entries_are_judged_in_order(rt: HostRuntime) {
    let mut rank = rank_of(rt.alloc(), 1, 2).expect(&rt, "a rank");
    let faults = [
        Some(CommunicatorFault::Blocked),
        Some(CommunicatorFault::NoCommunicator),
        Some(CommunicatorFault::Replaced),
        None,
    ];
    assert_eq!(rt;
        entries(&mut rank),
        (faults, true, Some(CommunicatorFault::Blocked))
    );
}

/// What a question breaks: blocked on requests, with no communicator, compared with none, and with none of these; and
/// then in a collective.
fn questions(
    rank: &mut Communicators,
) -> (
    [Option<CommunicatorFault>; 4],
    bool,
    Option<CommunicatorFault>,
) {
    let faults = [
        rank.fault_of_question(true, None, Question::Rank),
        rank.fault_of_question(false, None, Question::Size),
        rank.fault_of_question(false, Some(0), Question::Compare(None)),
        rank.fault_of_question(false, Some(0), Question::Group),
    ];
    let entered = enter(rank, 0, Entry::Barrier).is_ok();
    let inside = rank.fault_of_question(false, Some(0), Question::Size);
    (faults, entered, inside)
}

#[test]
fn questions_are_judged_in_order(rt: HostRuntime) {
    let mut rank = rank_of(rt.alloc(), 1, 2).expect(&rt, "a rank");
    let faults = [
        Some(CommunicatorFault::Blocked),
        Some(CommunicatorFault::NoCommunicator),
        Some(CommunicatorFault::NoCommunicator),
        None,
    ];
    assert_eq!(rt;
        questions(&mut rank),
        (faults, true, Some(CommunicatorFault::Blocked))
    );
}

#[test]
fn faults_have_numbers(rt: HostRuntime) {
    let numbers = [
        CommunicatorFault::Blocked.number(),
        CommunicatorFault::NoCommunicator.number(),
        CommunicatorFault::Replaced.number(),
        CommunicatorFault::Limit.number(),
    ];
    assert_eq!(rt; numbers, [6, 4, 11, 13]);
}

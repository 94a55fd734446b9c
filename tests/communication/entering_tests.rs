//! Entries of collectives, messages of others, and lessons.

use crate::ranks::{End, Refused, Step, TURNED, arrive, end_of, enter, rank_of, split};
use communicators::{CollectiveRefusal, Communicators, Entry};
use payload::{Payload, PayloadContent, Record};

/// What a barrier of the rank alone and a copy of its communicator give, and whether it holds the copy.
fn enter_alone(rank: &mut Communicators) -> ([Step; 2], bool) {
    let steps = [enter(rank, 1, Entry::Barrier), enter(rank, 1, Entry::Dup)];
    (steps, !rank.has_no_communicator(Some(2)))
}

#[test]
fn collectives_of_self_are_left_at_once(rt: HostRuntime) {
    let mut rank = rank_of(rt.alloc(), 1, 2).expect(&rt, "a rank");
    let steps = [Ok((0, Some(End::Left))), Ok((0, Some(End::Comm(Some(2)))))];
    assert_eq!(rt; enter_alone(&mut rank), (steps, true));
}

/// What a collective on world and its message give, and whether the rank is in one before, between and behind them.
fn enter_and_hear(
    rank: &mut Communicators,
    entry: Entry,
    payload: Payload<'_>,
) -> ([Step; 2], [bool; 3]) {
    let before = rank.is_inside();
    let entered = enter(rank, 0, entry);
    let inside = rank.is_inside();
    let heard = arrive(rank, payload);
    ([entered, heard], [before, inside, rank.is_inside()])
}

#[test]
fn a_message_ends_a_split(rt: HostRuntime) {
    let mut rank = rank_of(rt.alloc(), 1, 2).expect(&rt, "a rank");
    let steps = [Ok((1, None)), Ok((0, Some(End::Comm(Some(2)))))];
    assert_eq!(rt;
        enter_and_hear(&mut rank, split(), TURNED),
        (steps, [false, true, false])
    );
}

#[test]
fn a_part_of_another_record_is_refused(rt: HostRuntime) {
    let mut rank = rank_of(rt.alloc(), 1, 2).expect(&rt, "a rank");
    let payload = Payload {
        entered: Record::Barrier,
        part: PayloadContent::Context(9),
    };
    let steps = [
        Ok((1, None)),
        Err(Refused::Step(CollectiveRefusal::BadFrame)),
    ];
    assert_eq!(rt;
        enter_and_hear(&mut rank, Entry::Barrier, payload),
        (steps, [false, true, true])
    );
}

/// What a barrier on world gives, what a lesson of rank 0 at incarnations 0 and 1 ends, and whether the rank is in the
/// barrier then.
fn learn_inside(rank: &mut Communicators) -> (Step, [Option<End>; 2], bool) {
    let entered = enter(rank, 0, Entry::Barrier);
    let lessons = [end_of(rank.learn(0, 0)), end_of(rank.learn(0, 1))];
    (entered, lessons, rank.is_inside())
}

#[test]
fn a_lesson_ends_the_collective_of_a_former_member(rt: HostRuntime) {
    let mut rank = rank_of(rt.alloc(), 1, 2).expect(&rt, "a rank");
    let lessons = [None, Some(End::Replaced)];
    assert_eq!(rt; learn_inside(&mut rank), (Ok((1, None)), lessons, false));
}

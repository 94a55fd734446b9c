//! What refuses an entry or a message, and what ends a collective from outside.

use crate::ranks::{End, end_of};
use collective_messages::{Address, CollectiveRefusal, Entry};
use collectives::Collective;
use context_agreement::{Communicator, Context, Contexts};
use groups::Group;
use payload::{Choice, Direction, NewGroup, Payload, PayloadContent, Record};
use std::alloc::Global;
use vocabulary::Endpoint;

/// A rank's contexts, and its part in collectives.
#[derive(Drop)]
struct Rank {
    alloc: Global,
    endpoint: Endpoint,
    contexts: Contexts,
    collective: Collective,
}

/// A rank of a job with so many ranks.
fn rank_of(alloc: Global, rank: u16, size: u16) -> Option<Rank> {
    let endpoint = Endpoint {
        rank,
        incarnation: 0,
    };
    let contexts = Contexts::new(alloc, rank, 0, size).ok()?;
    Some(Rank {
        alloc,
        endpoint,
        contexts,
        collective: Collective::new(alloc, endpoint),
    })
}

/// A split in which all have one colour and one key.
fn split() -> Entry {
    Entry::Split(Choice {
        colour: Some(0),
        key: 0,
    })
}

/// The rule that entering would break, or the limit that it would meet, where there is one.
fn fault(rank: &Rank, place: usize, entry: Entry) -> Option<CollectiveRefusal> {
    if let Some(refused) = rank.collective.fault_of(&rank.contexts, place) {
        return Some(refused);
    }
    if rank.collective.meets_limit(&rank.contexts, place, &entry) {
        return Some(CollectiveRefusal::Limit);
    }
    None
}

/// The rank enters a collective on world; whether it is in one then.
fn enter(rank: &mut Rank, entry: Entry) -> bool {
    if rank.collective.fault_of(&rank.contexts, 0).is_some()
        || rank.collective.meets_limit(&rank.contexts, 0, &entry)
    {
        return false;
    }
    match rank.collective.prepare_entry(&mut rank.contexts, 0, entry) {
        Ok(ready) => {
            rank.collective.enter(&mut rank.contexts, ready).is_none()
                && rank.collective.present().is_some()
        }
        Err(_) => false,
    }
}

/// What entering a barrier on world would break before the rank is in a collective, and inside, where a communicator is
/// held and where none is.
fn blocked(
    rank: &mut Rank,
) -> (
    Option<CollectiveRefusal>,
    bool,
    [Option<CollectiveRefusal>; 2],
) {
    let before = fault(rank, 0, Entry::Barrier);
    let inside = enter(rank, Entry::Barrier);
    let faults = [fault(rank, 1, Entry::Barrier), fault(rank, 2, Entry::Dup)];
    (before, inside, faults)
}

#[test]
fn an_entry_in_a_collective_is_refused(rt: HostRuntime) {
    let mut rank = rank_of(rt.alloc(), 1, 3).expect(&rt, "a rank");
    let inside = Some(CollectiveRefusal::Blocked);
    assert_eq!(rt; blocked(&mut rank), (None, true, [inside; 2]));
}

#[test]
fn no_communicator_is_refused(rt: HostRuntime) {
    let rank = rank_of(rt.alloc(), 1, 3).expect(&rt, "a rank");
    let found = fault(&rank, 2, Entry::Barrier);
    assert_eq!(rt; found, Some(CollectiveRefusal::NoCommunicator));
}

/// The rank holds one more communicator, of itself alone; whether it could.
fn install(rank: &mut Rank, number: u64) -> bool {
    if rank.contexts.is_full() || rank.contexts.reserve().is_err() {
        return false;
    }
    let communicator = Communicator {
        context: Context::from_number(number),
        group: Group::of_rank(rank.alloc, rank.endpoint.rank),
    };
    let _place = rank.contexts.install_reserved(communicator);
    true
}

/// How many of 4,094 further communicators there is room for, and what a copy, a split and a barrier would break then.
fn fill(rank: &mut Rank) -> (u32, [Option<CollectiveRefusal>; 3]) {
    let mut installed = 0u32;
    for serial in 2..4096 {
        if install(rank, serial) {
            installed = installed.wrapping_add(1);
        }
    }
    let faults = [
        fault(rank, 0, Entry::Dup),
        fault(rank, 0, split()),
        fault(rank, 0, Entry::Barrier),
    ];
    (installed, faults)
}

#[test]
fn a_copy_beyond_4096_communicators_is_refused(rt: HostRuntime) {
    let mut rank = rank_of(rt.alloc(), 1, 3).expect(&rt, "a rank");
    let limit = Some(CollectiveRefusal::Limit);
    assert_eq!(rt; fill(&mut rank), (4094, [limit, limit, None]));
}

/// What lessons of a rank at incarnations 0 and 1 end, and whether the rank is in a collective after each.
fn learn_twice(rank: &mut Rank) -> [(Option<End>, bool); 2] {
    let same = end_of(rank.collective.learn(&rank.contexts, 2, 0));
    let inside = rank.collective.present().is_some();
    let higher = end_of(rank.collective.learn(&rank.contexts, 2, 1));
    [
        (same, inside),
        (higher, rank.collective.present().is_some()),
    ]
}

/// Whether the rank entered a barrier, and what lessons end then.
fn learn_inside(rank: &mut Rank) -> (bool, [(Option<End>, bool); 2]) {
    (enter(rank, Entry::Barrier), learn_twice(rank))
}

#[test]
fn a_lesson_ends_the_collective_of_a_former_member(rt: HostRuntime) {
    let mut rank = rank_of(rt.alloc(), 1, 3).expect(&rt, "a rank");
    let lessons = [(None, true), (Some(End::Replaced), false)];
    assert_eq!(rt; learn_inside(&mut rank), (true, lessons));
}

/// The address of a message that rank 0 sent at this incarnation in the first collective on world.
fn address_of(incarnation: u16) -> Address {
    Address {
        sender: Endpoint {
            rank: 0,
            incarnation,
        },
        context: 0,
        number: 0,
    }
}

/// The ending of a collective, or why a message is refused.
type Told = Result<Option<End>, CollectiveRefusal>;

/// A message of rank 0 of the first collective on world comes to the rank.
fn arrive(rank: &mut Rank, payload: Payload<'_>) -> Told {
    match rank
        .collective
        .prepare_message(&mut rank.contexts, None, address_of(0), payload)
    {
        Ok(ready) => Ok(end_of(rank.collective.on_message(&mut rank.contexts, ready))),
        Err(refused) => Err(refused),
    }
}

/// A message of a split that gives a communicator with these members.
fn group_of(ranks: &[u8]) -> Payload<'_> {
    Payload {
        entered: Record::Split,
        part: PayloadContent::NewGroup(NewGroup { context: 9, ranks }),
    }
}

/// What the rank answers, in a split, to a group that names it twice, and to one that does not.
fn told_of_groups(rank: &mut Rank) -> (bool, [Told; 2]) {
    let inside = enter(rank, split());
    let twice = arrive(rank, group_of(&[0, 1, 0, 1]));
    (inside, [twice, arrive(rank, group_of(&[0, 1, 0, 0]))])
}

#[test]
fn a_group_with_a_rank_twice_is_dropped(rt: HostRuntime) {
    let mut rank = rank_of(rt.alloc(), 1, 3).expect(&rt, "a rank");
    let answers = [Ok(None), Ok(Some(End::Comm(Some(2))))];
    assert_eq!(rt; told_of_groups(&mut rank), (true, answers));
}

/// The message that ends a barrier.
fn all_have_entered() -> Payload<'static> {
    Payload {
        entered: Record::Barrier,
        part: PayloadContent::Nothing(Direction::FromRoot),
    }
}

/// What the rank answers, in a barrier, to a message whose part is of another collective, and to the one that ends it.
fn told_of_parts(rank: &mut Rank) -> (bool, [Told; 2]) {
    let inside = enter(rank, Entry::Barrier);
    let context = Payload {
        entered: Record::Barrier,
        part: PayloadContent::Context(9),
    };
    (
        inside,
        [arrive(rank, context), arrive(rank, all_have_entered())],
    )
}

#[test]
fn a_part_of_another_record_is_refused(rt: HostRuntime) {
    let mut rank = rank_of(rt.alloc(), 1, 3).expect(&rt, "a rank");
    let answers = [Err(CollectiveRefusal::BadFrame), Ok(Some(End::Left))];
    assert_eq!(rt; told_of_parts(&mut rank), (true, answers));
}

/// What ends the rank's barrier, where the message that would end it comes from rank 0 started anew: the lesson, and
/// then the message.
fn told_by_replaced(rank: &mut Rank) -> Option<[Option<End>; 2]> {
    if !enter(rank, Entry::Barrier) {
        return None;
    }
    let address = address_of(1);
    match rank.collective.prepare_message(
        &mut rank.contexts,
        Some(address.sender),
        address,
        all_have_entered(),
    ) {
        Ok(ready) => {
            let lesson = end_of(rank.collective.learn(&rank.contexts, 0, 1));
            Some([
                lesson,
                end_of(rank.collective.on_message(&mut rank.contexts, ready)),
            ])
        }
        Err(_) => None,
    }
}

#[test]
fn a_message_is_judged_after_its_lesson(rt: HostRuntime) {
    let mut rank = rank_of(rt.alloc(), 1, 3).expect(&rt, "a rank");
    assert_eq!(rt;
        told_by_replaced(&mut rank),
        Some([Some(End::Replaced), None])
    );
}

//! The worked contexts and splits, and each call with ample memory.

use context_agreement::{Communicator, Context, Contexts, SplitPart, SplitRow, split_plan};
use groups::Group;
use std::alloc::Global;

/// The row of a member.
fn row(rank: u16, colour: Option<u32>, key: i32) -> SplitRow {
    SplitRow { colour, key, rank }
}

#[test]
fn contexts_have_numbers(rt: HostRuntime) {
    assert_eq!(rt; Context::WORLD.number(), 0);
    assert_eq!(rt; Context::of_self(3, 1).number(), 0x0003_0001_0000_0001);
    let context = Context::from_number(0x0102_0304_0506_0708);
    assert_eq!(rt;
        (context.rank, context.incarnation, context.serial),
        (0x0102, 0x0304, 0x0506_0708)
    );
}

/// The number of the next context.
fn next(contexts: &mut Contexts) -> Option<u64> {
    match contexts.next() {
        Ok(context) => Some(context.number()),
        Err(_) => None,
    }
}

/// How many serials are left, two contexts, and how many are left then.
fn give_two(contexts: &mut Contexts) -> (u64, [Option<u64>; 2], u64) {
    let before = contexts.serials_left();
    let given = [next(contexts), next(contexts)];
    (before, given, contexts.serials_left())
}

#[test]
fn first_contexts_of_a_rank(rt: HostRuntime) {
    let mut contexts = Contexts::new(rt.alloc(), 2, 0, 4).expect(&rt, "contexts");
    let given = [Some(0x0002_0000_0000_0002), Some(0x0002_0000_0000_0003)];
    assert_eq!(rt; give_two(&mut contexts), (0xffff_fffe, given, 0xffff_fffc));
}

/// Whether the group of a context has just these ranks.
fn has_group(contexts: &Contexts, context: Context, ranks: &[u16]) -> bool {
    let Some(place) = contexts.place_of(context) else {
        return false;
    };
    match contexts.communicator(place) {
        Some(communicator) => communicator.group.ranks() == ranks,
        None => false,
    }
}

/// The number of the context at a place, and whether its group has just these ranks.
fn at(contexts: &Contexts, place: usize, ranks: &[u16]) -> Option<(u64, bool)> {
    let own = contexts.communicator(place)?;
    Some((own.context.number(), own.group.ranks() == ranks))
}

/// Whether there is a third communicator, whether there is no room for more, and whether world and self are as they
/// should be.
fn first_two(contexts: &Contexts) -> (bool, bool, bool, Option<(u64, bool)>) {
    (
        contexts.communicator(2).is_some(),
        contexts.is_full(),
        has_group(contexts, Context::WORLD, &[0, 1, 2, 3]),
        at(contexts, 1, &[3]),
    )
}

#[test]
fn a_rank_begins_with_world_and_self(rt: HostRuntime) {
    let contexts = Contexts::new(rt.alloc(), 3, 1, 4).expect(&rt, "contexts");
    let own = Some((0x0003_0001_0000_0001, true));
    assert_eq!(rt; first_two(&contexts), (false, false, true, own));
}

/// The place of a new communicator of one rank, where the rank may hold one more.
fn install(alloc: Global, contexts: &mut Contexts, number: u64, rank: u16) -> Option<usize> {
    if contexts.is_full() || contexts.reserve().is_err() {
        return None;
    }
    let context = Context::from_number(number);
    let group = Group::of_rank(alloc, rank);
    Some(contexts.install_reserved(Communicator { context, group }))
}

/// The place of a new communicator, the places of its context and of another, and whether it has its group.
fn install_one(
    alloc: Global,
    contexts: &mut Contexts,
) -> (Option<usize>, [Option<usize>; 2], bool) {
    let place = install(alloc, contexts, 4, 7);
    let places = [
        contexts.place_of(Context::from_number(4)),
        contexts.place_of(Context::from_number(5)),
    ];
    (
        place,
        places,
        has_group(contexts, Context::from_number(4), &[7]),
    )
}

#[test]
fn communicators_have_places_in_order(rt: HostRuntime) {
    let mut contexts = Contexts::new(rt.alloc(), 2, 0, 4).expect(&rt, "contexts");
    assert_eq!(rt;
        install_one(rt.alloc(), &mut contexts),
        (Some(2), [Some(2), None], true)
    );
}

/// The number of the context that is given once so many others are.
fn coming(contexts: &Contexts, further: u64) -> Option<u64> {
    match contexts.context_after(further) {
        Some(context) => Some(context.number()),
        None => None,
    }
}

/// Two contexts that are to come, the two behind the last one, and what is given next once three were drawn.
fn show_and_draw(contexts: &mut Contexts) -> ([Option<u64>; 4], Option<u64>) {
    let shown = [
        coming(contexts, 0),
        coming(contexts, 1),
        coming(contexts, 0xffff_fffd),
        coming(contexts, 0xffff_fffe),
    ];
    if contexts.serials_left() >= 3 {
        contexts.draw(3);
    }
    (shown, next(contexts))
}

#[test]
fn drawn_contexts_are_those_that_were_to_come(rt: HostRuntime) {
    let mut contexts = Contexts::new(rt.alloc(), 2, 0, 4).expect(&rt, "contexts");
    let shown = [
        Some(0x0002_0000_0000_0002),
        Some(0x0002_0000_0000_0003),
        Some(0x0002_0000_ffff_ffff),
        None,
    ];
    assert_eq!(rt;
        show_and_draw(&mut contexts),
        (shown, Some(0x0002_0000_0000_0005))
    );
}

/// How many of 4,094 further communicators there is room for, and whether it is all then.
fn fill(alloc: Global, contexts: &mut Contexts) -> (u32, bool) {
    let mut installed = 0u32;
    for serial in 2..4096 {
        if install(alloc, contexts, serial, 0).is_some() {
            installed = installed.wrapping_add(1);
        }
    }
    (installed, contexts.is_full())
}

#[test]
fn a_rank_holds_4096_communicators(rt: HostRuntime) {
    let mut contexts = Contexts::new(rt.alloc(), 0, 0, 1).expect(&rt, "contexts");
    assert_eq!(rt; fill(rt.alloc(), &mut contexts), (4094, true));
}

/// Whether a plan has just these parts, each with its colour and its ranks in order.
fn is_planned(alloc: Global, rows: &[SplitRow], parts: &[(u32, &[u16])]) -> bool {
    match split_plan(alloc, rows) {
        Ok(plan) => plan.len() == parts.len() && plan.iter().zip(parts).all(is_part),
        Err(_) => false,
    }
}

fn is_part(both: (&SplitPart, &(u32, &[u16]))) -> bool {
    let (part, wanted) = both;
    part.colour() == wanted.0 && part.ranks() == wanted.1
}

#[test]
fn rows_are_split_by_colour_and_key(rt: HostRuntime) {
    let rows = [
        row(0, Some(1), 5),
        row(1, Some(0), 0),
        row(2, Some(1), 5),
        row(3, None, 0),
    ];
    let parts = [(0, [1].as_slice()), (1, [0, 2].as_slice())];
    assert!(rt; is_planned(rt.alloc(), &rows, &parts));
}

#[test]
fn negative_keys_come_first(rt: HostRuntime) {
    let rows = [row(2, Some(7), 3), row(1, Some(7), -4), row(0, Some(7), 3)];
    assert!(rt; is_planned(rt.alloc(), &rows, &[(7, [1, 0, 2].as_slice())]));
}

#[test]
fn no_colour_gives_no_part(rt: HostRuntime) {
    assert!(rt; is_planned(rt.alloc(), &[row(0, None, 1)], &[]));
}

//! What a world shows of what happened in it, and what its text can't show.

use crate::world_steps::{End, Told, WORLD, deliver, enter};
use datatypes::Buffer;
use engine::{Call, Entry, Send};
use requests::Region;
use std::alloc::Global;
use vocabulary::{BasicType, Mode, Source};
use world::{Event, StepResult, World};

/// The first, count and place of an event that ran.
fn ran(world: &mut World, event: Event) -> Option<(usize, usize, usize)> {
    match world.step(event) {
        Ok(stepped) => Some((stepped.first, stepped.count, stepped.place)),
        Err(_) => None,
    }
}

/// The number of a refused event, and the datagram that went out with it.
fn refused(world: &mut World, event: Event) -> Option<(u8, Option<usize>)> {
    match world.step(event) {
        Ok(_) => None,
        Err(failed) => Some((failed.refused.number(), failed.reset)),
    }
}

fn number_of_no_world(alloc: Global, size: u16) -> Option<u8> {
    match World::new(alloc, size) {
        Ok(_) => None,
        Err(refused) => Some(refused.number()),
    }
}

fn send_to_rank_1(alloc: Global) -> Option<Event> {
    let mut elements = Buffer::new(alloc, BasicType::Int32);
    elements.push_copies(1, 1).ok()?;
    Some(Event::Call(
        0,
        Call::Isend(Send {
            mode: Mode::Standard,
            comm: Some(0),
            target: Source::Rank(1),
            tag: Some(7),
            from: Region::whole(elements),
        }),
    ))
}

/// What ran of two ticks, the refusal of a clock that goes back, how much happened, and whether there is a datagram.
fn ticks(
    world: &mut World,
) -> (
    Option<(usize, usize, usize)>,
    Option<(u8, Option<usize>)>,
    usize,
    bool,
) {
    let _first = ran(world, Event::Tick(0, 5));
    let _nobody = refused(world, Event::Tick(7, 5));
    let _second = ran(world, Event::Tick(1, 3));
    let third = ran(world, Event::Tick(0, 5));
    let back = refused(world, Event::Tick(0, 4));
    (
        third,
        back,
        world.history().len(),
        world.datagram(0).is_none(),
    )
}

#[test]
fn world_shows_what_happened(rt: HostRuntime) {
    let mut world = World::new(rt.alloc(), 2).expect(&rt, "a world");
    assert_eq!(rt;
        ticks(&mut world),
        (Some((0, 0, 2)), Some((41, None)), 3, true)
    );
}

#[test]
fn worlds_have_1_to_1024_ranks(rt: HostRuntime) {
    for (size, number) in [(0, Some(13)), (1, None), (1024, None), (1025, Some(13))] {
        assert_eq!(rt; number_of_no_world(rt.alloc(), size), number, "{size}");
    }
}

/// Runs the events, and answers how many answers there are.
fn run(world: &mut World, events: Vec<Event>) -> Option<usize> {
    let answers = world.run(events).ok()?;
    Some(answers.len())
}

/// The number of a refusal among the answers of a run.
fn refusal_at(answers: &[StepResult], place: usize) -> Option<u8> {
    match answers.get(place) {
        Some(Err(failed)) => Some(failed.refused.number()),
        _ => None,
    }
}

/// The datagrams and the place in the history of an event among the answers of a run.
fn step_at(answers: &[StepResult], place: usize) -> Option<(usize, usize, usize)> {
    match answers.get(place) {
        Some(Ok(stepped)) => Some((stepped.first, stepped.count, stepped.place)),
        _ => None,
    }
}

/// Of a run with refused events between others: how many answers there are, the refusals, the last step, and how much
/// happened.
fn refused_between(
    alloc: Global,
    world: &mut World,
) -> Option<
    (
        usize,
        (Option<u8>, Option<u8>, Option<u8>),
        Option<(usize, usize, usize)>,
        usize,
    ),
> {
    let events = vec![in alloc;
        Event::Tick(0, 5),
        Event::Tick(0, 4),
        Event::Deliver(0),
        Event::Restart(7),
        Event::Tick(1, 3),
    ]
    .ok()?;
    let answers = world.run(events).ok()?;
    let refusals = (
        refusal_at(&answers, 1),
        refusal_at(&answers, 2),
        refusal_at(&answers, 3),
    );
    let last = step_at(&answers, 4);
    Some((answers.len(), refusals, last, world.history().len()))
}

#[test]
fn run_answers_each_event(rt: HostRuntime) {
    let mut world = World::new(rt.alloc(), 2).expect(&rt, "a world");
    assert_eq!(rt;
        refused_between(rt.alloc(), &mut world),
        Some((5, (Some(41), Some(62), Some(61)), Some((0, 0, 1)), 2))
    );
}

/// Whether the world is quiet at first, after a send, and once all is acknowledged.
fn quiet_once_acknowledged(alloc: Global, world: &mut World) -> Option<(bool, bool, bool)> {
    let first = world.is_quiet();
    let sent = send_to_rank_1(alloc)?;
    run(
        world,
        vec![in alloc;
            sent,
            Event::Tick(0, 20),
            Event::Deliver(1),
            Event::Deliver(1),
        ]
        .ok()?,
    )?;
    let busy = world.is_quiet();
    run(world, vec![in alloc; Event::Deliver(2)].ok()?)?;
    Some((first, busy, world.is_quiet()))
}

#[test]
fn world_is_quiet_once_all_is_acknowledged(rt: HostRuntime) {
    let mut world = World::new(rt.alloc(), 2).expect(&rt, "a world");
    assert_eq!(rt;
        quiet_once_acknowledged(rt.alloc(), &mut world),
        Some((true, false, true))
    );
}

/// Whether the world is quiet after a send to a rank, once that rank is started anew, once its reset came, and after
/// another send; and how the first datagram is refused.
fn quiet_after_a_restart(
    alloc: Global,
    world: &mut World,
) -> Option<(bool, bool, Option<(u8, Option<usize>)>, bool, bool)> {
    run(world, vec![in alloc; send_to_rank_1(alloc)?].ok()?)?;
    let sent = world.is_quiet();
    run(world, vec![in alloc; Event::Restart(1)].ok()?)?;
    let restarted = world.is_quiet();
    let stale = refused(world, Event::Deliver(0));
    run(world, vec![in alloc; Event::Deliver(1)].ok()?)?;
    let told = world.is_quiet();
    run(world, vec![in alloc; send_to_rank_1(alloc)?].ok()?)?;
    Some((sent, restarted, stale, told, world.is_quiet()))
}

#[test]
fn session_with_a_former_incarnation_leaves_the_world_quiet(rt: HostRuntime) {
    let mut world = World::new(rt.alloc(), 2).expect(&rt, "a world");
    assert_eq!(rt;
        quiet_after_a_restart(rt.alloc(), &mut world),
        Some((false, true, Some((29, Some(1))), true, false))
    );
}

/// Three ranks meet in a barrier: what the last one tells, and the last delivery, and whether the world is quiet then.
fn barrier_of_three(world: &mut World) -> ([Told; 3], bool) {
    enter(world, 1, WORLD, Entry::Barrier);
    enter(world, 2, WORLD, Entry::Barrier);
    deliver(world, 0);
    deliver(world, 1);
    let last = enter(world, 0, WORLD, Entry::Barrier);
    let told = [last, deliver(world, 4), deliver(world, 5)];
    deliver(world, 2);
    deliver(world, 3);
    deliver(world, 6);
    deliver(world, 7);
    (told, world.is_quiet())
}

#[test]
fn three_ranks_leave_a_barrier(rt: HostRuntime) {
    let mut world = World::new(rt.alloc(), 3).expect(&rt, "a world");
    assert_eq!(rt;
        barrier_of_three(&mut world),
        ([Told::Ended(End::Left); 3], true)
    );
}

/// How many of so many restarts of rank 0 run.
fn restarts(world: &mut World, count: u32) -> u32 {
    let mut restarts = 0u32;
    for _restart in 0..count {
        if ran(world, Event::Restart(0)).is_some() {
            restarts = restarts.wrapping_add(1);
        }
    }
    restarts
}

#[test]
fn incarnations_of_a_rank_end(rt: HostRuntime) {
    let mut world = World::new(rt.alloc(), 1).expect(&rt, "a world");
    let answered = (
        restarts(&mut world, 65_537),
        refused(&mut world, Event::Restart(0)),
    );
    assert_eq!(rt; answered, (65_535, Some((13, None))));
}

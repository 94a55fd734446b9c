use crate::worlds::{State, World};
use move_search::{Next, Search};
use rand_core::SeedableRng;
use rand_xoshiro::Xoshiro256PlusPlus;
use std::alloc::{AllocError, Global};

/// Which moves are taken for such that clash.
#[derive(Clone, Copy, Debug, PartialEq, Eq)]
enum Clashes {
    /// Those that do.
    AsTheyDo,
    /// All: so nothing ever sleeps.
    All,
    /// None.
    None,
}

/// What a search came to.
#[derive(Drop)]
struct Searched {
    ends: Vec<State>,
    runs: u64,
    tried_all: bool,
}

fn add_end(ends: &mut Vec<State>, end: State) -> Result<(), AllocError> {
    if !ends.contains(&end) {
        ends.push(end)?;
    }
    Ok(())
}

/// All ends, by every state that there is.
fn ends_by_states(alloc: Global, world: &World) -> Result<Vec<State>, AllocError> {
    let mut seen = Vec::new(alloc);
    let mut ends = Vec::new(alloc);
    seen.push(State::start())?;
    for place in 0..10_000 {
        let Some(state) = seen.get(place).copied() else {
            break;
        };
        let moves = world.moves(alloc, &state)?;
        if moves.is_empty() {
            add_end(&mut ends, state)?;
        }
        for name in &moves {
            add_end(&mut seen, world.after(&state, *name))?;
        }
    }
    Ok(ends)
}

/// One run of a search, of so many moves at most.
fn run(
    alloc: Global,
    world: &World,
    clashes: Clashes,
    most: usize,
    search: &mut Search,
    ends: &mut Vec<State>,
) -> Result<(), AllocError> {
    let mut state = State::start();
    for _ in 0..most {
        let moves = world.moves(alloc, &state)?;
        let Next::Make(name) = search.choose(moves.as_slice())? else {
            break;
        };
        let mut apart = Vec::new(alloc);
        for beside in search.beside() {
            let clash = match clashes {
                Clashes::AsTheyDo => world.clash(*beside, name),
                Clashes::All => true,
                Clashes::None => false,
            };
            if !clash {
                apart.push(*beside)?;
            }
        }
        search.go_on(apart.as_slice());
        state = world.after(&state, name);
    }
    if world.moves(alloc, &state)?.is_empty() {
        add_end(ends, state)?;
    }
    Ok(())
}

/// A whole search, by runs of so many moves at most.
fn search_all(
    alloc: Global,
    world: &World,
    clashes: Clashes,
    most: usize,
) -> Result<Searched, AllocError> {
    let mut search = Search::new(alloc);
    let mut ends = Vec::new(alloc);
    let mut runs = 0u64;
    for _ in 0..100_000 {
        run(alloc, world, clashes, most, &mut search, &mut ends)?;
        runs = runs.wrapping_add(1);
        if !search.next_run() {
            break;
        }
    }
    Ok(Searched {
        ends,
        runs,
        tried_all: search.tried_all(),
    })
}

fn are_same(some: &[State], others: &[State]) -> bool {
    some.len() == others.len() && some.iter().all(|end| others.contains(end))
}

/// Searches so many random worlds. Answers in how many of them the search told that all was tried and found just the
/// ends that there are, how many ends there are in all, and how many runs there were.
fn compared(
    alloc: Global,
    worlds: u64,
    clashes: Clashes,
    most: usize,
) -> Result<(u64, u64, u64), AllocError> {
    let mut random = Xoshiro256PlusPlus::seed_from_u64(1);
    let (mut right, mut all_ends, mut runs) = (0u64, 0u64, 0u64);
    for _ in 0..worlds {
        let world = World::drawn(alloc, &mut random)?;
        let ends = ends_by_states(alloc, &world)?;
        let found = search_all(alloc, &world, clashes, most)?;
        if found.tried_all && are_same(ends.as_slice(), found.ends.as_slice()) {
            right = right.wrapping_add(1);
        }
        all_ends = all_ends.wrapping_add(ends.len() as u64);
        runs = runs.wrapping_add(found.runs);
    }
    Ok((right, all_ends, runs))
}

#[test]
fn each_end_of_random_worlds_is_found(rt: HostRuntime) {
    let found = compared(rt.alloc(), 2_000, Clashes::AsTheyDo, 64).expect(&rt, "memory");
    assert_eq!(rt; found.0, 2_000);
}

#[test]
fn without_sleep_there_are_more_runs_and_the_same_ends(rt: HostRuntime) {
    let found = compared(rt.alloc(), 300, Clashes::All, 64).expect(&rt, "memory");
    assert_eq!(rt; found, (300, 1_794, 65_778));
}

#[test]
fn where_nothing_is_said_to_clash_ends_are_missed(rt: HostRuntime) {
    let found = compared(rt.alloc(), 300, Clashes::None, 64).expect(&rt, "memory");
    assert_eq!(rt; found, (73, 1_794, 2_124));
}

#[test]
fn a_bound_is_told(rt: HostRuntime) {
    let found = compared(rt.alloc(), 300, Clashes::AsTheyDo, 5).expect(&rt, "memory");
    assert_eq!(rt; found, (72, 1_794, 4_589));
}

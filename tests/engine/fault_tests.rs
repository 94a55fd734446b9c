//! The loop of a running rank over a transport that fails at one of its calls, for each of them in turn: the engine got
//! just what came before, and what wasn't acknowledged before is sent again once its time has come.

use crate::two_ranks::{PING_PONG, Pair, new_pair, rank_of};
use datagram::{Content, Frame};
use engine::Engine;
use event_loop::{Ended, Rank, Rising, drive};
use script_runner::ScriptRunner;
use std::alloc::Global;
use std::process::Abort;
use std::sync::Wait;

/// Rank 1 sends the element 2 as INT32 with tag 2 to rank 0, in its frame 1 of job 1.
const SECOND_FRAME: [u8; 56] = [
    0x4d, 0x50, 0x55, 0x44, 2, 1, 0, 1, 0, 0, 0, 0, 0, 0, 0, 24, 0, 0, 0, 0, 0, 0, 0, 1, 0, 0, 0,
    0, 0, 0, 0, 1, 1, 0, 3, 0, 0, 0, 0, 2, 0, 0, 0, 0, 0, 0, 0, 0, 0, 0, 0, 1, 0, 0, 0, 2,
];

/// How a rank stands after a fault of its transport.
#[derive(Clone, Copy, Debug, PartialEq, Eq)]
struct Standing {
    /// Whether its frame 0, and nothing else, is sent again once its time has come.
    sends_again: bool,
    /// Whether the frame 0 of rank 1 came to it.
    came: bool,
    /// Whether it says that nothing is unacknowledged.
    idle: bool,
}

/// Whether bytes are the message of rank 0, in its frame 0.
fn is_message(bytes: &[u8]) -> bool {
    match datagram::read(bytes) {
        Ok(read) => {
            let is_first = read.header.sequence == 0;
            is_first
                && matches!(read.content, Content::Frame(Frame::Eager(eager)) if eager.tag == 1)
        }
        Err(_) => false,
    }
}

/// Whether an engine sends its message again at the end of time, or nothing; none where it sends something else.
fn sends_again(engine: &mut Engine) -> Option<bool> {
    drop(engine.take_out());
    engine.tick(u64::MAX).ok()?;
    let again = engine.take_out();
    let Some((rank, bytes)) = again.first() else {
        return Some(false);
    };
    let rank = *rank;
    if again.len() == 1 && rank == 1 && is_message(bytes.as_slice()) {
        Some(true)
    } else {
        None
    }
}

/// Whether an engine has taken the frame 0 of rank 1: then frame 1 is taken at once, and else it is held.
fn has_taken_first(engine: &mut Engine) -> Option<bool> {
    engine.on_datagram(&SECOND_FRAME).ok()?;
    let emitted = engine.take_out();
    let (_rank, bytes) = emitted.first()?;
    let read = datagram::read(bytes.as_slice()).ok()?;
    match (read.content, read.header.sequence) {
        (Content::Ack(0), 2) => Some(true),
        (Content::Ack(2), 0) => Some(false),
        _ => None,
    }
}

fn standing_of(engine: &mut Engine) -> Option<Standing> {
    let idle = engine.is_idle();
    Some(Standing {
        sends_again: sends_again(engine)?,
        came: has_taken_first(engine)?,
        idle,
    })
}

/// How the rank ends over a pair, and how its engine stands then.
fn driven<R: Wait>(
    rt: &R,
    rank: &mut Rank<ScriptRunner>,
    pair: &mut Pair,
) -> (Option<Ended>, Option<Standing>) {
    let mut clock = Rising { time: 0 };
    let ended = drive(rt, rank, 500, pair, &mut clock).ok();
    (ended, standing_of(&mut rank.engine))
}

/// The same of rank 0 of the ping-pong, and how it is to stand, by what the pair gave it before it failed at its call
/// of this number.
fn run_over<R: Wait>(
    rt: &R,
    alloc: Global,
    pair: &mut Pair,
    at: u64,
) -> Option<(Option<Ended>, Option<Standing>, Standing)> {
    let Some(mut rank) = rank_of(alloc, PING_PONG, 0) else {
        return None;
    };
    let (ended, found) = driven(rt, &mut rank, pair);
    drop(rank);
    let (acknowledged, came) = pair.given();
    // The first call asks for a datagram; behind it the message is sent.
    let sends_again = at > 1 && !acknowledged;
    let wanted = Standing {
        sends_again,
        came,
        idle: !sends_again,
    };
    Some((ended, found, wanted))
}

/// The same over a new pair, and how many calls of it there were.
fn run<R: Wait>(
    rt: &R,
    alloc: Global,
    at: u64,
) -> Option<(Option<Ended>, Option<Standing>, Standing, u64)> {
    let Some(mut pair) = new_pair(alloc, PING_PONG, at, true) else {
        return None;
    };
    let shown = run_over(rt, alloc, &mut pair, at);
    let (calls, _failures) = pair.counts();
    drop(pair);
    let (ended, found, wanted) = shown?;
    Some((ended, found, wanted, calls))
}

/// A fault at this call is told, and the engine stands as it is to.
fn assert_standing<R: Wait + Abort>(rt: &R, alloc: Global, at: u64) {
    let shown = run(rt, alloc, at).map(|(ended, found, wanted, _)| (ended, found == Some(wanted)));
    assert_eq!(rt; shown, Some((None, true)), "at call {at}");
}

#[test]
fn a_fault_leaves_what_came_before_it(rt: HostRuntime) {
    let calls = run(&rt, rt.alloc(), 100_000).map(|(_, _, _, calls)| calls);
    let last = calls.unwrap_or(0);
    assert!(rt; last > 100);
    for at in 1..last {
        assert_standing(&rt, rt.alloc(), at);
    }
}

//! The loop of a running rank over transports in memory: how it ends, and what it has printed then.

use crate::two_ranks::{COLLECTIVES, PING_PONG, Pair, new_pair, rank_of};
use event_loop::{Ended, Memory, Rank, Rising, Transport, drive};
use script_runner::ScriptRunner;
use std::alloc::Global;
use std::collections::VecDeque;
use std::process::Abort;
use std::sync::Wait;

/// How a rank ends over a transport, with patience 500, and whether nothing of it is unacknowledged then; no ending is
/// a fault of the transport.
fn driven<R: Wait, T: Transport>(
    rt: &R,
    rank: &mut Rank<ScriptRunner>,
    transport: &mut T,
) -> (Option<Ended>, bool) {
    let mut clock = Rising { time: 0 };
    let ended = drive(rt, rank, 500, transport, &mut clock).ok();
    (ended, rank.engine.is_idle())
}

/// The same of rank 0 of a script.
fn run<R: Wait, T: Transport>(
    rt: &R,
    alloc: Global,
    text: &[u8],
    transport: &mut T,
) -> Option<(Option<Ended>, bool)> {
    let Some(mut rank) = rank_of(alloc, text, 0) else {
        return None;
    };
    let shown = driven(rt, &mut rank, transport);
    drop(rank);
    Some(shown)
}

/// How rank 0 of the script ends over a new pair, whether nothing is unacknowledged, whether it has printed these lines
/// alone, and how many calls of the transport there were and how many of them failed.
fn run_over<R: Wait>(
    rt: &R,
    alloc: Global,
    text: &[u8],
    lines: &[u8],
    pair: &mut Pair,
) -> Option<(Option<Ended>, bool, bool, u64, u64)> {
    let (ended, idle) = run(rt, alloc, text, pair)?;
    let (calls, failures) = pair.counts();
    Some((ended, idle, pair.has_printed(lines), calls, failures))
}

/// The same over a pair that fails from its call of this number on, and answers or doesn't.
fn run_script<R: Wait>(
    rt: &R,
    alloc: Global,
    text: &[u8],
    lines: &[u8],
    fails_at: u64,
    answers: bool,
) -> Option<(Option<Ended>, bool, bool, u64, u64)> {
    let Some(mut pair) = new_pair(alloc, text, fails_at, answers) else {
        return None;
    };
    let shown = run_over(rt, alloc, text, lines, &mut pair);
    drop(pair);
    shown
}

/// The same of the ping-pong, of which rank 0 prints `2` alone.
fn run_pair<R: Wait>(
    rt: &R,
    alloc: Global,
    fails_at: u64,
    answers: bool,
) -> Option<(Option<Ended>, bool, bool, u64, u64)> {
    run_script(rt, alloc, PING_PONG, b"2\n", fails_at, answers)
}

#[test]
fn a_rank_ends_by_its_script(rt: HostRuntime) {
    let shown = run_pair(&rt, rt.alloc(), 100_000, true).map(|(ended, idle, printed, _, failures)| (
        ended, idle, printed, failures,
    ));
    assert_eq!(rt; shown, Some((Some(Ended::Runner(0, None)), true, true, 0)));
    assert_eq!(rt; Ended::Runner(0, None).status(), 0);
}

/// How rank 0 of the script of collectives ends over a pair that answers, whether nothing is unacknowledged, and
/// whether it has printed what it must.
fn run_collectives<R: Wait>(rt: &R, alloc: Global) -> Option<(Option<Ended>, bool, bool)> {
    let lines = b"1 2\n4 6\n3 8\n1 2 3 4\n3 4\nerror 7\ndone\n";
    let (ended, idle, printed, _, _) = run_script(rt, alloc, COLLECTIVES, lines, 100_000, true)?;
    Some((ended, idle, printed))
}

#[test]
fn collectives_carry_elements_between_ranks(rt: HostRuntime) {
    let shown = run_collectives(&rt, rt.alloc());
    assert_eq!(rt; shown, Some((Some(Ended::Runner(0, None)), true, true)));
}

#[test]
fn a_rank_ends_by_its_patience(rt: HostRuntime) {
    let shown = run_pair(&rt, rt.alloc(), 100_000, false).map(|(
        ended,
        idle,
        printed,
        _,
        failures,
    )| (ended, idle, printed, failures));
    assert_eq!(rt; shown, Some((Some(Ended::Patience), false, false, 0)));
}

/// Over a transport in memory that gives nothing.
fn run_alone<R: Wait>(rt: &R, alloc: Global, calls: u64) -> Option<(Option<Ended>, bool)> {
    let mut memory = Memory::new(alloc, VecDeque::new(alloc), calls);
    run(rt, alloc, PING_PONG, &mut memory)
}

#[test]
fn a_rank_alone_ends_by_its_patience(rt: HostRuntime) {
    assert_eq!(rt;
        run_alone(&rt, rt.alloc(), 99_999),
        Some((Some(Ended::Patience), false))
    );
    assert_eq!(rt; Ended::Patience.status(), 4);
}

/// Whether, of two waits over a transport in memory of whose calls one succeeds, just the first one succeeds.
fn second_wait_fails(alloc: Global) -> bool {
    let mut memory = Memory::new(alloc, VecDeque::new(alloc), 1);
    let Ok(_) = memory.wait(5) else {
        return false;
    };
    memory.wait(5).is_err()
}

#[test]
fn a_wait_in_memory_is_one_of_its_calls(rt: HostRuntime) {
    assert!(rt; second_wait_fails(rt.alloc()));
}

fn assert_fault<R: Wait + Abort>(rt: &R, alloc: Global, at: u64) {
    let shown = run_pair(rt, alloc, at, true).map(|(ended, _, _, calls, failures)| (
        ended, calls, failures,
    ));
    assert_eq!(rt; shown, Some((None, at, 1)), "at call {at}");
}

#[test]
fn each_call_may_fail(rt: HostRuntime) {
    let whole = run_pair(&rt, rt.alloc(), 100_000, true).map(|(_, _, _, calls, _)| calls);
    let calls = whole.unwrap_or(0);
    assert!(rt; calls > 100);
    for at in 1..calls {
        assert_fault(&rt, rt.alloc(), at);
    }
}

//! How long frames wait by the round trips that were measured; the numbers are those of RFC 6298, reckoned by hand.

use round_trips::*;
use std::alloc::Global;

/// What is known once the round trip of frame 0 to incarnation 0 took so many microseconds.
fn measured(round_trip: u64) -> RoundTrip {
    RoundTrip::begun(0, None, 0)
        .after_frame(0, 0, 1_000)
        .after_acknowledgement(0, 1, 0, round_trip.saturating_add(1_000))
}

#[test]
fn waits_follow_round_trips(rt: HostRuntime) {
    let first = measured(40_000);
    let second = first
        .after_frame(0, 1, 100_000)
        .after_acknowledgement(0, 2, 0, 144_000);
    let waits = (
        RoundTrip::begun(0, None, 0).wait_now(),
        first.wait_now(),
        second.wait_now(),
        measured(200).wait_now(),
        measured(9_000_000).wait_now(),
    );
    assert_eq!(rt; waits, (200, 120, 105, 21, 1_000));
}

#[test]
fn a_frame_that_goes_thrice_again_doubles_the_wait_and_is_not_measured(rt: HostRuntime) {
    let twice = measured(40_000)
        .after_frame(0, 1, 100_000)
        .after_frame(0, 1, 220_000)
        .after_frame(0, 1, 340_000);
    let thrice = twice.after_frame(0, 1, 460_000);
    let over = thrice.after_acknowledgement(0, 2, 0, 461_000);
    let next = over
        .after_frame(0, 2, 500_000)
        .after_acknowledgement(0, 3, 0, 540_000);
    let waits = (twice.wait_now(), thrice.wait_now(), over.wait_now());
    assert_eq!(rt; (waits, next.wait_now()), ((120, 240, 240), 100));
}

/// Which of the frames from 0 to 7 may go again.
fn may_go(trip: RoundTrip) -> [bool; 8] {
    let mut may = [false; 8];
    for number in 0..8 {
        may[number as usize] = trip.lets_go(0, number);
    }
    may
}

#[test]
fn late_frames_go_again_one_by_one(rt: HostRuntime) {
    let mut late = RoundTrip::begun(0, None, 0);
    for number in 0..8 {
        late = late.after_frame(0, number, 1_000);
    }
    let one = late.after_frame(0, 0, 200_000);
    // The one that went again came, so the next one was lost, too; or frames came that didn't go again.
    let two = one.after_acknowledgement(0, 1, 0, 240_000);
    let back = one.after_acknowledgement(0, 5, 0, 240_000);
    // Of two that are missing below one that came both go.
    let missing = late.after_acknowledgement(0, 1, 0b100, 240_000);
    assert_eq!(rt;
        (late.lets_go(0, 8), two.gap, back.gap),
        (true, Gap::Seen, Gap::Unseen)
    );
    assert_eq!(rt;
        may_go(one),
        [true, false, false, false, false, false, false, false]
    );
    assert_eq!(rt;
        may_go(two),
        [true, true, true, false, false, false, false, false]
    );
    assert_eq!(rt;
        may_go(back),
        [true, true, true, true, true, true, false, false]
    );
    assert_eq!(rt;
        may_go(missing),
        [true, true, true, true, false, false, false, false]
    );
}

#[test]
fn a_frame_below_three_held_ones_goes_within_a_round_trip(rt: HostRuntime) {
    let sent = measured(40_000)
        .after_frame(0, 1, 100_000)
        .after_frame(0, 2, 100_000);
    let two = sent.after_acknowledgement(0, 1, 0b1100, 130_000);
    let three = two.after_acknowledgement(0, 1, 0b11100, 131_000);
    let again = three.after_frame(0, 1, 140_000);
    let waits = (three.gap, three.wait_now(), again.gap);
    assert_eq!(rt;
        (two.gap, waits),
        (Gap::Unseen, (Gap::Seen, 40, Gap::Mended))
    );
}

#[test]
fn another_incarnation_begins_anew(rt: HostRuntime) {
    let former = measured(40_000).after_frame(0, 1, 100_000);
    let other = former.after_acknowledgement(1, 2, 0, 101_000);
    let anew = former.after_frame(1, 0, 102_000);
    assert_eq!(rt;
        (other == former, anew.newest, anew.wait_now()),
        (true, Some(0), 120)
    );
}

/// How long frames to rank 1 wait once a frame to it went out and its acknowledgement came; none to rank 2.
fn wait_by_datagrams(alloc: Global) -> Option<(u64, Option<u64>)> {
    let frame = [
        0x4d, 0x50, 0x55, 0x44, 2, 1, 0, 0, 0, 1, 0, 0, 0, 0, 0, 8, 0, 0, 0, 0, 0, 0, 0, 1, 0, 0,
        0, 0, 0, 0, 0, 0, 3, 0, 0, 0, 0, 0, 1, 2,
    ];
    let acknowledgement = [
        0x4d, 0x50, 0x55, 0x44, 2, 2, 0, 1, 0, 0, 0, 0, 0, 0, 0, 8, 0, 0, 0, 0, 0, 0, 0, 1, 0, 0,
        0, 0, 0, 0, 0, 1, 0, 0, 0, 0, 0, 0, 0, 0,
    ];
    let mut trips = RoundTrips::new(alloc, 2).ok()?;
    trips.on_sent(&frame, 5_000);
    trips.on_sent(&acknowledgement, 6_000);
    trips.on_came(&frame, 7_000);
    trips.on_came(&acknowledgement, 45_000);
    Some((trips.wait_of(1)?, trips.wait_of(2)))
}

#[test]
fn datagrams_tell_of_round_trips(rt: HostRuntime) {
    assert_eq!(rt; wait_by_datagrams(rt.alloc()), Some((120, None)));
    let stays = (stay_for(20), stay_for(120), stay_near(20), stay_near(600));
    assert_eq!(rt; stays, (640, 3_840, 160, 4_000));
}

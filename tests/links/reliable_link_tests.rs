//! A window of 64 frames, when frames are due, and what is handed up.

use datagram::Bytes;
use reliable_link::*;
use std::alloc::Global;

/// The number of the frame that comes into the window with one more frame: none where the frame was refused, and none
/// within where no frame comes into the window.
fn accepted(alloc: Global, sender: &mut Sender, byte: u8) -> Option<Option<u64>> {
    let bytes = Bytes::from_slice(alloc, &[byte]).ok()?;
    match sender.accept(bytes) {
        Ok(entered) => Some(entered),
        Err(_) => None,
    }
}

/// Accepts 64 frames, each of which comes into the window at once. Answers how many did.
fn fill(alloc: Global, sender: &mut Sender) -> u64 {
    let mut entered = 0u64;
    for number in 0..64u8 {
        if accepted(alloc, sender, number) == Some(Some(u64::from(number))) {
            entered = entered.wrapping_add(1);
        }
    }
    entered
}

/// The numbers that come into the window by an acknowledgement.
fn entered_by(sender: &mut Sender, number: u64) -> Result<(u64, u64), LinkRefusal> {
    let entered = sender.on_ack(number, 0)?;
    Ok((entered.start, entered.end))
}

/// Those that would.
fn would_enter(sender: &Sender, number: u64) -> Option<(u64, u64)> {
    if !sender.allows(number, 0) {
        return None;
    }
    let entering = sender.entering(number);
    Some((entering.start, entering.end))
}

/// How many of 64 frames came into the window, what became of the 65th, and the next number.
fn fill_beyond(alloc: Global, sender: &mut Sender) -> (u64, Option<Option<u64>>, u64) {
    let entered = fill(alloc, sender);
    let last = accepted(alloc, sender, 64);
    (entered, last, sender.next_number())
}

#[test]
fn the_65th_frame_waits(rt: HostRuntime) {
    let mut sender = Sender::new(rt.alloc());
    assert_eq!(rt; fill_beyond(rt.alloc(), &mut sender), (64, Some(None), 65));
}

type Entered = Result<(u64, u64), LinkRefusal>;

/// What an acknowledgement beyond the window, of the first frame, of it again and of all bring into the window, and
/// whether nothing is left then.
fn acknowledge(alloc: Global, sender: &mut Sender) -> ([Entered; 4], bool, u64) {
    let _filled = fill_beyond(alloc, sender);
    let entered = [
        entered_by(sender, 65),
        entered_by(sender, 1),
        entered_by(sender, 1),
        entered_by(sender, 65),
    ];
    (entered, sender.is_empty(), sender.next_number())
}

#[test]
fn an_acknowledgement_lets_the_65th_frame_out(rt: HostRuntime) {
    let mut sender = Sender::new(rt.alloc());
    let entered = [
        Err(LinkRefusal::OutOfWindow),
        Ok((64, 65)),
        Ok((65, 65)),
        Ok((65, 65)),
    ];
    assert_eq!(rt; acknowledge(rt.alloc(), &mut sender), (entered, true, 65));
}

/// What would come into the window by acknowledgements of one frame and of 65, and whether the frames 0 and 64 are held
/// before and after that of one.
fn look(alloc: Global, sender: &mut Sender) -> ([Option<(u64, u64)>; 2], [bool; 4]) {
    let _filled = fill_beyond(alloc, sender);
    let entering = [would_enter(sender, 1), would_enter(sender, 65)];
    let before = (is_held(sender, 0), is_held(sender, 64));
    let _entered = entered_by(sender, 1);
    let held = [before.0, before.1, is_held(sender, 0), is_held(sender, 64)];
    (entering, held)
}

/// Whether the frame of this number is held, whose only byte is its number.
fn is_held(sender: &Sender, number: u8) -> bool {
    match sender.frame(u64::from(number)) {
        Some(frame) => frame.as_slice() == [number].as_slice(),
        None => false,
    }
}

#[test]
fn a_sender_shows_what_it_holds(rt: HostRuntime) {
    let mut sender = Sender::new(rt.alloc());
    assert_eq!(rt;
        look(rt.alloc(), &mut sender),
        ([Some((64, 65)), None], [true, true, false, true])
    );
}

/// Whether just these frames are due.
fn are_due(sender: &Sender, now: u64, numbers: &[u64]) -> bool {
    match sender.due(now) {
        Ok(due) => due.as_slice() == numbers,
        Err(_) => false,
    }
}

/// Frames that were due went out now. Answers the clock.
fn mark(sender: &mut Sender, now: u64) -> u64 {
    if sender.clock() <= now {
        sender.mark_sent(now);
    }
    sender.clock()
}

/// Whether frames are due just when they should be, how a clock that goes back is refused, and the clock.
fn resend(alloc: Global, sender: &mut Sender) -> ([bool; 5], Option<LinkRefusal>, [u64; 2]) {
    let _first = accepted(alloc, sender, 0);
    let early = are_due(sender, 19, &[]);
    let first_clock = mark(sender, 19);
    let _second = accepted(alloc, sender, 1);
    let first = are_due(sender, 20, &[0]);
    let second_clock = mark(sender, 20);
    let due = [
        early,
        first,
        are_due(sender, 20, &[]),
        are_due(sender, 39, &[1]),
        are_due(sender, 40, &[0, 1]),
    ];
    (due, sender.due(19).err(), [first_clock, second_clock])
}

#[test]
fn a_frame_is_due_20_ms_after_it_was_sent(rt: HostRuntime) {
    let mut sender = Sender::new(rt.alloc());
    assert_eq!(rt;
        resend(rt.alloc(), &mut sender),
        ([true; 5], Some(LinkRefusal::ClockBack), [19, 20])
    );
}

/// Whether a new sender stands at 0, and after a tick at 7 at that time, at the one before and at the next one.
fn standing(sender: &mut Sender) -> [bool; 4] {
    let at_start = sender.stands_at(0);
    let _clock = mark(sender, 7);
    [
        at_start,
        sender.stands_at(7),
        sender.stands_at(0),
        sender.stands_at(8),
    ]
}

#[test]
fn a_sender_stands_at_its_last_tick(rt: HostRuntime) {
    let mut sender = Sender::new(rt.alloc());
    assert_eq!(rt; standing(&mut sender), [true, true, false, false]);
}

fn begin_anew(alloc: Global, sender: &mut Sender) -> (bool, u64, u64, Option<Option<u64>>) {
    let _first = accepted(alloc, sender, 0);
    let clock = mark(sender, 7);
    sender.reset();
    let is_empty = sender.is_empty();
    let next = sender.next_number();
    (is_empty, next, clock, accepted(alloc, sender, 9))
}

#[test]
fn a_new_session_begins_with_number_0(rt: HostRuntime) {
    let mut sender = Sender::new(rt.alloc());
    assert_eq!(rt;
        begin_anew(rt.alloc(), &mut sender),
        (true, 0, 7, Some(Some(0)))
    );
}

/// Whether just these frames are due at 20 ms: the one whose bit is clear where three were sent at 0 ms and the
/// receiver holds two, none where it holds them all but the first and that one was acknowledged, and the next one where
/// it is told that it isn't held.
fn marked(alloc: Global, sender: &mut Sender) -> ([Option<LinkRefusal>; 3], [bool; 3]) {
    for number in 0..3u8 {
        let _entered = accepted(alloc, sender, number);
    }
    let unsent = sender.on_ack(0, 8).err();
    let two = sender.on_ack(0, 6).err();
    let first = are_due(sender, 20, &[0]);
    let one = sender.on_ack(1, 2).err();
    let next = are_due(sender, 20, &[1]);
    let _clock = mark(sender, 20);
    ([unsent, two, one], [first, next, are_due(sender, 40, &[1])])
}

#[test]
fn frames_that_are_held_are_not_sent_again(rt: HostRuntime) {
    let mut sender = Sender::new(rt.alloc());
    assert_eq!(rt;
        marked(rt.alloc(), &mut sender),
        ([Some(LinkRefusal::OutOfWindow), None, None], [true; 3])
    );
}

/// The next session of a sender that has a frame, with its places: whether it is empty, its clock, and what comes into
/// its window first.
fn renewed(alloc: Global, mut sender: Sender) -> (bool, u64, Option<Option<u64>>) {
    let _first = accepted(alloc, &mut sender, 0);
    let _clock = mark(&mut sender, 7);
    let mut next = sender.for_new_session();
    next.take_places(sender);
    let is_empty = next.is_empty();
    (is_empty, next.clock(), accepted(alloc, &mut next, 9))
}

#[test]
fn a_renewed_sender_begins_with_number_0(rt: HostRuntime) {
    assert_eq!(rt;
        renewed(rt.alloc(), Sender::new(rt.alloc())),
        (true, 7, Some(Some(0)))
    );
}

type Judged = Result<FrameVerdict, LinkRefusal>;

/// What becomes of frame 1, of frame 0 twice, and of frame 1 again, and the number that is next then.
fn hand_up(receiver: &mut Receiver) -> ([Judged; 4], u64) {
    let verdicts = [
        receiver.on_frame(1, b"1"),
        receiver.on_frame(0, b"0"),
        receiver.on_frame(0, b"0"),
        receiver.on_frame(1, b"1"),
    ];
    (verdicts, receiver.next())
}

/// What a new session says of frame 0 and takes it for.
fn begin_again(receiver: &mut Receiver) -> [Judged; 2] {
    receiver.reset();
    [receiver.verdict(0), receiver.on_frame(0, b"0")]
}

#[test]
fn frames_are_handed_up_once_and_in_order(rt: HostRuntime) {
    let mut receiver = Receiver::new(rt.alloc());
    let handed = hand_up(&mut receiver);
    let again = begin_again(&mut receiver);
    let verdicts = [
        Ok(FrameVerdict::Accepted),
        Ok(FrameVerdict::Accepted),
        Ok(FrameVerdict::Repeated),
        Ok(FrameVerdict::Accepted),
    ];
    assert_eq!(rt;
        (handed, again),
        ((verdicts, 2), [Ok(FrameVerdict::Accepted); 2])
    );
    frames_are_handed_up_in_order();
}

#[test]
fn a_frame_is_held_up_to_63_numbers_early(rt: HostRuntime) {
    let mut receiver = Receiver::new(rt.alloc());
    let verdicts = [
        receiver.on_frame(63, b"last"),
        receiver.on_frame(63, b"last"),
        receiver.on_frame(64, b"beyond"),
    ];
    assert_eq!(rt;
        verdicts,
        [
            Ok(FrameVerdict::Accepted),
            Ok(FrameVerdict::Repeated),
            Err(LinkRefusal::OutOfWindow)
        ]
    );
    assert_eq!(rt; (receiver.next(), receiver.held_bits()), (0, 1 << 63));
}

/// Whether these bytes are held as the next frame.
fn is_ready(receiver: &Receiver, bytes: &[u8]) -> bool {
    match receiver.ready() {
        Some(frame) => frame.as_slice() == bytes,
        None => false,
    }
}

/// What is told of the frames 1 and 2 that came early, once they came, once frame 0 came too, and once frame 1 is
/// handed up.
fn told(receiver: &mut Receiver) -> [u64; 4] {
    let _second = receiver.on_frame(2, b"2");
    let _first = receiver.on_frame(1, b"1");
    let early = receiver.held_bits();
    let _next = receiver.on_frame(0, b"0");
    let behind = receiver.held_bits_after_next();
    let first = receiver.held_bits();
    if receiver.next() < 9 {
        receiver.advance();
    }
    [early, first, behind, receiver.held_bits()]
}

#[test]
fn held_frames_are_told_until_their_turn_comes(rt: HostRuntime) {
    let mut receiver = Receiver::new(rt.alloc());
    assert_eq!(rt; told(&mut receiver), [6, 2, 0, 0]);
    assert!(rt; is_ready(&receiver, b"2"));
    receiver.discard();
    assert!(rt; receiver.ready().is_none());
    assert_eq!(rt; receiver.next(), 2);
    let mut next = receiver.for_new_session();
    next.take_places(receiver);
    assert_eq!(rt; (next.next(), next.held_bits()), (0, 0));
}

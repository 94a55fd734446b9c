
use datagram::{ClearToSend, Clearance, Data, Eager, Frame, Outgoing, Plane, RequestToSend};
use sessions::*;
use std::alloc::Global;
use vocabulary::{BasicType, Endpoint, MessageLimit, Mode};

/// The sessions of a rank of job 1, which has three ranks.
fn sessions_of(alloc: Global, rank: u16, incarnation: u16) -> Option<Sessions> {
    let endpoint = Endpoint { rank, incarnation };
    let place = Place {
        endpoint,
        size: 3,
        job: 1,
        message_limit: MessageLimit::least(),
    };
    Sessions::new(alloc, place).ok()
}

/// Frames of these bytes for two ranks go out in one event.
fn send_both(sessions: &mut Sessions, first: u16, second: u16, elements: &[u8]) -> bool {
    let size = sessions.place().size;
    let eager = Eager {
        plane: Plane::PointToPoint,
        basic: BasicType::Byte,
        tag: 5,
        context: 0,
        count: 1,
        elements,
    };
    if first >= size || second >= size || !eager.fits() {
        return false;
    }
    let frame = Frame::Eager(eager);
    let frames = [
        Outgoing {
            target: first,
            frame,
        },
        Outgoing {
            target: second,
            frame,
        },
    ];
    sessions.carry_out(None, &frames).is_ok()
}

/// What these bytes say is taken in, and answered by a frame of the same bytes to its source where that is asked for.
/// The answer is how many bytes were handed up, or that nothing was.
fn take_in(sessions: &mut Sessions, bytes: &[u8]) -> Option<usize> {
    let heard = match sessions.judge(bytes) {
        Ok(heard) => heard,
        Err(unheard) => {
            let _ = sessions.refuse(unheard);
            return None;
        }
    };
    let handed = match heard.word {
        LinkEvent::Hands(Frame::Eager(eager)) => Some(eager.elements.len()),
        _ => None,
    };
    match sessions.carry_out(Some(heard), &[]) {
        Ok(()) => handed,
        Err(_) => None,
    }
}

/// Whether a frame is within the format's limits.
fn fits(frame: Frame<'_>) -> bool {
    match frame {
        Frame::Eager(eager) => eager.fits(),
        Frame::RequestToSend(request) => request.fits(),
        Frame::ClearToSend(_) => true,
        Frame::Data(part) => part.fits(),
    }
}

/// A frame goes to a rank.
fn send_frame(sessions: &mut Sessions, target: u16, frame: Frame<'_>) -> bool {
    if target >= sessions.place().size || !fits(frame) {
        return false;
    }
    sessions
        .carry_out(None, &[Outgoing { target, frame }])
        .is_ok()
}

/// A frame of these bytes goes to a rank.
fn send(sessions: &mut Sessions, target: u16, count: u32, elements: &[u8]) -> bool {
    let eager = Eager {
        plane: Plane::PointToPoint,
        basic: BasicType::Byte,
        tag: 5,
        context: 0,
        count,
        elements,
    };
    send_frame(sessions, target, Frame::Eager(eager))
}

/// All that one has emitted comes to the other; so many frames are handed up there.
fn pass(from: &mut Sessions, to: &mut Sessions) -> usize {
    let mut handed = 0usize;
    for (_, bytes) in &from.take_out() {
        if take_in(to, bytes.as_slice()).is_some() {
            handed = handed.saturating_add(1);
        }
    }
    handed
}

/// So many frames go to a rank.
fn send_many(sessions: &mut Sessions, target: u16, count: usize) -> bool {
    for _sent in 0..count {
        if !send(sessions, target, 1, b"x") {
            return false;
        }
    }
    true
}

/// How many frames of 130 are handed up at once, after their acknowledgements, and after those.
fn rounds(ranks: &mut [Sessions]) -> Option<(usize, usize, usize, bool)> {
    let [a, b] = ranks else {
        return None;
    };
    if !send_many(a, 1, 130) {
        return None;
    }
    let first = pass(a, b);
    let _ = pass(b, a);
    let second = pass(a, b);
    let _ = pass(b, a);
    let third = pass(a, b);
    let _ = pass(b, a);
    Some((first, second, third, a.is_idle()))
}

fn two_ranks(alloc: Global, incarnation: u16) -> Option<Vec<Sessions>> {
    let mut ranks = Vec::new(alloc);
    ranks.push(sessions_of(alloc, 0, 0)?).ok()?;
    ranks.push(sessions_of(alloc, 1, incarnation)?).ok()?;
    Some(ranks)
}

fn many_frames(alloc: Global) -> Option<(usize, usize, usize, bool)> {
    let mut ranks = two_ranks(alloc, 0)?;
    rounds(&mut ranks)
}

#[test]
fn a_session_keeps_130_frames_of_which_64_are_out(rt: HostRuntime) {
    assert_eq!(rt; many_frames(rt.alloc()), Some((64, 64, 2, true)));
}

fn both(alloc: Global) -> Option<(bool, usize, bool)> {
    let mut sessions = sessions_of(alloc, 0, 0)?;
    let sent = send_both(&mut sessions, 2, 1, b"x");
    let emitted = sessions.take_out().len();
    Some((sent, emitted, sessions.is_idle()))
}

#[test]
fn two_frames_go_to_two_ranks_in_one_event(rt: HostRuntime) {
    assert_eq!(rt; both(rt.alloc()), Some((true, 2, false)));
}

/// The first datagram that one has emitted comes to the other; so many bytes are handed up there.
fn take_only(from: &mut Sessions, to: &mut Sessions) -> Option<usize> {
    let emitted = from.take_out();
    let (_, bytes) = emitted.first()?;
    take_in(to, bytes.as_slice())
}

fn long_frame(ranks: &mut [Sessions]) -> Option<usize> {
    let [a, b] = ranks else {
        return None;
    };
    if !send(a, 1, 1024, &[7u8; 1024]) {
        return None;
    }
    take_only(a, b)
}

fn longest(alloc: Global) -> Option<usize> {
    let mut ranks = two_ranks(alloc, 0)?;
    long_frame(&mut ranks)
}

#[test]
fn a_frame_of_1024_bytes_is_handed_up(rt: HostRuntime) {
    assert_eq!(rt; longest(rt.alloc()), Some(1024));
}

/// How many frames of a restarted rank are handed up, at which incarnation it is known then, and whether what waited
/// for its former self is gone.
fn meet_anew(ranks: &mut [Sessions]) -> Option<(usize, Option<Session>)> {
    let [a, b] = ranks else {
        return None;
    };
    if !send(a, 1, 1, b"x") {
        return None;
    }
    // For the former self: a reset answers it, and teaches.
    let handed = pass(a, b);
    let _ = pass(b, a);
    Some((handed, a.session(1)))
}

fn restarted(alloc: Global) -> Option<(usize, Option<Session>)> {
    let mut ranks = two_ranks(alloc, 1)?;
    meet_anew(&mut ranks)
}

#[test]
fn a_reset_teaches_that_a_rank_has_started_anew(rt: HostRuntime) {
    let learnt = Session {
        incarnation: 1,
        idle: true,
    };
    assert_eq!(rt; restarted(rt.alloc()), Some((0, Some(learnt))));
}

fn again(sessions: &mut Sessions) -> (bool, usize, usize) {
    let sent = send(sessions, 1, 1, b"x");
    let _ = sessions.take_out();
    let _ = sessions.tick(19);
    let early = sessions.take_out().len();
    let _ = sessions.tick(20);
    (sent, early, sessions.take_out().len())
}

fn resent(alloc: Global) -> Option<(bool, usize, usize)> {
    let mut sessions = sessions_of(alloc, 0, 0)?;
    Some(again(&mut sessions))
}

#[test]
fn an_unacknowledged_frame_goes_out_again_after_20_ms(rt: HostRuntime) {
    assert_eq!(rt; resent(rt.alloc()), Some((true, 0, 1)));
}

/// Rank 0 announces a message of 1,025 bytes with tag 5 to rank 1 as transfer 6, in frame 0 of job 1.
const REQUEST: [u8; 56] = [
    0x4d, 0x50, 0x55, 0x44, 2, 1, 0, 0, 0, 1, 0, 0, 0, 0, 0, 24, 0, 0, 0, 0, 0, 0, 0, 1, 0, 0, 0,
    0, 0, 0, 0, 0, 2, 0, 9, 0, 0, 0, 0, 5, 0, 0, 0, 0, 0, 0, 0, 0, 0, 0, 4, 1, 0, 0, 0, 6,
];

/// Rank 0 tells rank 1 that the data of transfer 7 are not to come, in frame 0 of job 1.
const CLEAR: [u8; 40] = [
    0x4d, 0x50, 0x55, 0x44, 2, 1, 0, 0, 0, 1, 0, 0, 0, 0, 0, 8, 0, 0, 0, 0, 0, 0, 0, 1, 0, 0, 0, 0,
    0, 0, 0, 0, 3, 1, 0, 0, 0, 0, 0, 7,
];

/// Rank 0 sends the bytes 1 and 2 of transfer 8 from offset 1,024 on to rank 1, in frame 0 of job 1.
const PART: [u8; 46] = [
    0x4d, 0x50, 0x55, 0x44, 2, 1, 0, 0, 0, 1, 0, 0, 0, 0, 0, 14, 0, 0, 0, 0, 0, 0, 0, 1, 0, 0, 0,
    0, 0, 0, 0, 0, 4, 0, 0, 0, 0, 0, 0, 8, 0, 0, 4, 0, 1, 2,
];

/// The transfer of the frame of a large message that is handed up.
fn transfer_of(word: LinkEvent<'_>) -> Option<u32> {
    match word {
        LinkEvent::Hands(Frame::RequestToSend(request)) => Some(request.transfer),
        LinkEvent::Hands(Frame::ClearToSend(clear)) => Some(clear.transfer),
        LinkEvent::Hands(Frame::Data(part)) => Some(part.transfer),
        _ => None,
    }
}

/// Whether a frame goes out to rank 1 as these bytes, and its transfer as it is handed up there.
fn pass_frame(
    ranks: &mut [Sessions],
    frame: Frame<'_>,
    bytes: &[u8],
) -> Option<(bool, Option<u32>)> {
    let [a, b] = ranks else {
        return None;
    };
    if !send_frame(a, 1, frame) {
        return None;
    }
    let emitted = a.take_out();
    let (_, spelled) = emitted.first()?;
    let heard = b.judge(spelled.as_slice()).ok()?;
    Some((spelled.as_slice() == bytes, transfer_of(heard.word)))
}

fn passed(alloc: Global, frame: Frame<'_>, bytes: &[u8]) -> Option<(bool, Option<u32>)> {
    let mut ranks = two_ranks(alloc, 0)?;
    pass_frame(&mut ranks, frame, bytes)
}

#[test]
fn an_announcement_is_handed_up(rt: HostRuntime) {
    let frame = Frame::RequestToSend(RequestToSend {
        mode: Mode::Standard,
        plane: Plane::PointToPoint,
        basic: BasicType::Byte,
        tag: 5,
        context: 0,
        count: 1025,
        transfer: 6,
    });
    assert_eq!(rt; passed(rt.alloc(), frame, &REQUEST), Some((true, Some(6))));
}

#[test]
fn the_answer_to_an_announcement_is_handed_up(rt: HostRuntime) {
    let frame = Frame::ClearToSend(ClearToSend {
        transfer: 7,
        clearance: Clearance::Drop,
    });
    assert_eq!(rt; passed(rt.alloc(), frame, &CLEAR), Some((true, Some(7))));
}

#[test]
fn data_of_an_announced_message_are_handed_up(rt: HostRuntime) {
    let frame = Frame::Data(Data {
        transfer: 8,
        offset: 1024,
        bytes: &[1, 2],
    });
    assert_eq!(rt; passed(rt.alloc(), frame, &PART), Some((true, Some(8))));
}

/// How many bytes are handed up by the second of two frames that comes before the first, and by the first then.
type HandedUp = (Option<usize>, Option<usize>);

/// How many bytes the next frame of rank 0 has, where it is held and its turn has come.
fn following(sessions: &Sessions, source: Endpoint) -> Option<usize> {
    if source.rank >= sessions.place().size {
        return None;
    }
    let bytes = sessions.ready(source.rank).ok()??;
    match turn_in(source, &bytes)?.word {
        LinkEvent::Follows(Frame::Eager(eager)) => Some(eager.elements.len()),
        _ => None,
    }
}

/// What two frames hand up that come in the wrong order, and how many bytes follow before the first one, behind it, and
/// once what is held was given up.
fn turned_round(ranks: &mut [Sessions]) -> Option<(HandedUp, [Option<usize>; 3])> {
    let [a, b] = ranks else {
        return None;
    };
    if !send(a, 1, 1, b"x") || !send(a, 1, 2, b"yz") {
        return None;
    }
    let source = a.place().endpoint;
    let emitted = a.take_out();
    let early = take_in(b, emitted.get(1)?.1.as_slice());
    let before = following(b, source);
    let first = take_in(b, emitted.first()?.1.as_slice());
    let behind = following(b, source);
    if source.rank >= b.place().size {
        return None;
    }
    b.discard(source.rank);
    Some(((early, first), [before, behind, following(b, source)]))
}

fn held(alloc: Global) -> Option<(HandedUp, [Option<usize>; 3])> {
    let mut ranks = two_ranks(alloc, 0)?;
    turned_round(&mut ranks)
}

#[test]
fn a_frame_that_comes_early_follows_in_its_turn(rt: HostRuntime) {
    assert_eq!(rt;
        held(rt.alloc()),
        Some(((None, Some(1)), [None, Some(2), None]))
    );
}

/// How many datagrams go out three times in turn: the first list is given back when it was taken out, the second one
/// when the next frames have gone out.
fn emitted_in_turn(sessions: &mut Sessions) -> (usize, usize, usize) {
    let _sent = send_both(sessions, 1, 2, b"a");
    let first = sessions.take_out();
    let first_len = first.len();
    sessions.give_back(first);
    let _sent = send_both(sessions, 1, 2, b"b");
    let second = sessions.take_out();
    let second_len = second.len();
    let _sent = send_both(sessions, 1, 2, b"c");
    sessions.give_back(second);
    (first_len, second_len, sessions.take_out().len())
}

fn emitted_by_a_new_rank(alloc: Global) -> Option<(usize, usize, usize)> {
    match sessions_of(alloc, 0, 0) {
        Some(mut sessions) => Some(emitted_in_turn(&mut sessions)),
        None => None,
    }
}

#[test]
fn a_list_that_is_given_back_holds_nothing(rt: HostRuntime) {
    assert_eq!(rt; emitted_by_a_new_rank(rt.alloc()), Some((2, 2, 2)));
}

//! Worked rows of one rank and of two. Helpers take engines by `&mut` and answer plain values, or nothing where a step
//! failed; a test makes the engines, calls one helper and compares.

use crate::pairs::{copies, deliver, rank_of_two, two_ranks};
use datatypes::Buffer;
use engine::{Call, Completion, Engine, Receive, Refusal, Reply, Send, Session};
use requests::{Answer, Outcome, Region, Request};
use std::alloc::Global;
use vocabulary::{BasicType, Mode, Source};

/// What a reply or a completion says, without the memory that it owns.
#[derive(Clone, Copy)]
enum Said {
    Started(Request),
    Blocked,
    /// The number of a refusal.
    Refused(u8),
    Sent,
    /// How many elements a receive got.
    Received(u64),
    Other,
}

fn said_by_answer(answer: &Answer) -> Said {
    match answer {
        Answer::One(Outcome::Sent) => Said::Sent,
        Answer::One(Outcome::Received(status, _buffer)) => Said::Received(status.count),
        _ => Said::Other,
    }
}

fn said_by_reply(reply: &Reply) -> Said {
    match reply {
        Reply::Started(request) => Said::Started(*request),
        Reply::Done(answer) => said_by_answer(answer),
        Reply::Blocked => Said::Blocked,
        Reply::Refused(refused, _call) => Said::Refused(refused.number()),
        _ => Said::Other,
    }
}

/// What a call is answered. The reply is dropped in generic code: in place its drop would be followed anew.
fn ask(engine: &mut Engine, call: Call) -> Said {
    let reply = engine.call(call);
    let said = said_by_reply(&reply);
    drop(reply);
    said
}

/// The answer of a call on requests that was blocked.
fn completed(engine: &mut Engine) -> Said {
    let completion = engine.take_completion();
    let said = match &completion {
        Some(Completion::Requests(answer)) => said_by_answer(answer),
        _ => Said::Other,
    };
    drop(completion);
    said
}

fn started(said: Said) -> Option<Request> {
    match said {
        Said::Started(request) => Some(request),
        _ => None,
    }
}

fn received_count(said: Said) -> Option<u64> {
    match said {
        Said::Received(count) => Some(count),
        _ => None,
    }
}

/// A copy of the call, in place of it.
fn copied(alloc: Global, call: Call) -> Option<Call> {
    let copy = call.try_clone(alloc).ok();
    drop(call);
    copy
}

fn start_send(alloc: Global, engine: &mut Engine) -> Option<Request> {
    let call = Call::Isend(Send {
        mode: Mode::Standard,
        comm: Some(0),
        target: Source::Rank(1),
        tag: Some(3),
        from: Region::whole(copies(alloc, 7, 1)?),
    });
    started(ask(engine, copied(alloc, call)?))
}

fn receive_from(alloc: Global, source: Source) -> Option<Call> {
    Some(Call::Irecv(Receive {
        comm: Some(0),
        source,
        tag: None,
        into: Region::whole(copies(alloc, 0, 2)?),
    }))
}

fn start_receive(alloc: Global, engine: &mut Engine, source: Source) -> Option<Request> {
    started(ask(engine, receive_from(alloc, source)?))
}

/// A send of rank 0 to itself, of no elements.
fn send_to_itself(alloc: Global) -> Call {
    Call::Isend(Send {
        mode: Mode::Standard,
        comm: Some(0),
        target: Source::Rank(0),
        tag: Some(3),
        from: Region::whole(Buffer::new(alloc, BasicType::Uint8)),
    })
}

/// How many datagrams an engine emitted.
fn emitted_count(engine: &mut Engine) -> usize {
    let emitted = engine.take_out();
    emitted.len()
}

/// Whether a call is not answered at once.
fn is_blocked_by(engine: &mut Engine, call: Call) -> bool {
    matches!(ask(engine, call), Said::Blocked)
}

/// Whether a wait for the request is not answered at once.
fn is_blocked(engine: &mut Engine, request: Request) -> bool {
    is_blocked_by(engine, Call::Wait(Some(request)))
}

fn is_clean(session: Option<Session>) -> bool {
    matches!(&session, Some(Session { idle: true, .. }))
}

/// Whether a wait blocked, how many elements a receive from any got of a message, and whether the sender is idle then.
fn pass_message(
    alloc: Global,
    sender: &mut Engine,
    receiver: &mut Engine,
) -> Option<(bool, Option<u64>, bool)> {
    let _sent = start_send(alloc, sender)?;
    let wanted = start_receive(alloc, receiver, Source::Any)?;
    let blocked = is_blocked(receiver, wanted);
    deliver(sender, receiver)?;
    let count = received_count(completed(receiver));
    deliver(receiver, sender)?;
    Some((blocked, count, sender.is_idle()))
}

fn message_between(alloc: Global) -> Option<(bool, Option<u64>, bool)> {
    let mut ranks = two_ranks(alloc, 0, 0)?;
    match ranks.as_mut_slice() {
        [sender, receiver] => pass_message(alloc, sender, receiver),
        _ => None,
    }
}

#[test]
fn a_message_goes_through(rt: HostRuntime) {
    assert_eq!(rt; message_between(rt.alloc()), Some((true, Some(1), true)));
}

/// The rank, whether its session is clean, and how a tick back in time is refused.
fn go_back(engine: &mut Engine) -> (u16, bool, bool, Option<u8>) {
    let rank = engine.place().endpoint.rank;
    let clean = is_clean(engine.session(0));
    let ticked = engine.tick(20).is_ok();
    let back = engine.tick(19).err().map(Refusal::number);
    (rank, clean, ticked, back)
}

fn clock(alloc: Global) -> Option<(u16, bool, bool, Option<u8>)> {
    let mut engine = rank_of_two(alloc, 1, 0).ok()?;
    let told = go_back(&mut engine);
    drop(engine);
    Some(told)
}

#[test]
fn a_clock_does_not_go_back(rt: HostRuntime) {
    assert_eq!(rt; clock(rt.alloc()), Some((1, true, true, Some(41))));
}

/// Starts so many sends of a rank to itself, and answers the last one's request.
fn start_sends_to_itself(alloc: Global, engine: &mut Engine, count: u32) -> Option<Request> {
    let mut last = None;
    for _number in 0..count {
        last = Some(started(ask(engine, send_to_itself(alloc)))?);
    }
    last
}

fn number_of_refusal(said: Said) -> Option<u8> {
    match said {
        Said::Refused(number) => Some(number),
        _ => None,
    }
}

/// The serial of the last request that there is room for, how one more is refused, whether the last one ends, and the
/// serial of the next one then.
fn reach_the_limit(alloc: Global, engine: &mut Engine) -> Option<(u64, Option<u8>, bool, u64)> {
    let last = start_sends_to_itself(alloc, engine, 65_536)?;
    let refused = number_of_refusal(ask(engine, send_to_itself(alloc)));
    let ended = matches!(ask(engine, Call::Wait(Some(last))), Said::Sent);
    let next = started(ask(engine, send_to_itself(alloc)))?;
    Some((last.serial, refused, ended, next.serial))
}

fn limit(alloc: Global) -> Option<(u64, Option<u8>, bool, u64)> {
    let mut engine = rank_of_two(alloc, 0, 0).ok()?;
    let told = reach_the_limit(alloc, &mut engine);
    drop(engine);
    told
}

#[test]
fn a_rank_has_65536_requests_at_one_time(rt: HostRuntime) {
    assert_eq!(rt; limit(rt.alloc()), Some((65_535, Some(13), true, 65_536)));
}

/// Starts so many receives from rank 1, which sends nothing, and answers the last one's request.
fn start_receives(alloc: Global, engine: &mut Engine, count: u32) -> Option<Request> {
    let mut last = None;
    for _number in 0..count {
        last = Some(start_receive(alloc, engine, Source::Rank(1))?);
    }
    last
}

/// The serial of the last receive that there is room for, how one more and a send are refused, and the serial of the
/// next receive once one was cancelled and waited for.
fn wait_with_all(alloc: Global, engine: &mut Engine) -> Option<(u64, Option<u8>, Option<u8>, u64)> {
    let last = start_receives(alloc, engine, 65_536)?;
    let receive = number_of_refusal(ask(engine, receive_from(alloc, Source::Rank(1))?));
    let send = number_of_refusal(ask(engine, send_to_itself(alloc)));
    let _cancelled = ask(engine, Call::Cancel(Some(last)));
    let _ended = ask(engine, Call::Wait(Some(last)));
    let next = start_receive(alloc, engine, Source::Rank(1))?;
    Some((last.serial, receive, send, next.serial))
}

fn waiting_receives(alloc: Global) -> Option<(u64, Option<u8>, Option<u8>, u64)> {
    let mut engine = rank_of_two(alloc, 0, 0).ok()?;
    let told = wait_with_all(alloc, &mut engine);
    drop(engine);
    told
}

#[test]
fn unfinished_receives_take_all_65536_places(rt: HostRuntime) {
    assert_eq!(rt;
        waiting_receives(rt.alloc()),
        Some((65_535, Some(13), Some(13), 65_536))
    );
}

#[test]
fn numbers_of_refusals(rt: HostRuntime) {
    for (refused, number) in [
        (Refusal::Rank, 5),
        (Refusal::of_datagram(datagram::DatagramRefusal::Short), 21),
        (Refusal::StaleSource, 28),
        (Refusal::StaleTarget, 29),
    ] {
        assert_eq!(rt; refused.number(), number);
    }
    assert_eq!(rt; rank_of_two(rt.alloc(), 2, 0).err(), Some(Refusal::Rank));
}

/// Rank 0 announces a message of 1,025 bytes with tag 3 to rank 1 as transfer 1, in frame 0 of job 1.
const REQUEST: [u8; 56] = [
    0x4d, 0x50, 0x55, 0x44, 2, 1, 0, 0, 0, 1, 0, 0, 0, 0, 0, 24, 0, 0, 0, 0, 0, 0, 0, 1, 0, 0, 0,
    0, 0, 0, 0, 0, 2, 0, 5, 0, 0, 0, 0, 3, 0, 0, 0, 0, 0, 0, 0, 0, 0, 0, 4, 1, 0, 0, 0, 1,
];

/// Rank 0 asks rank 1 for the data of transfer 0, in frame 0 of job 1.
const CLEAR: [u8; 40] = [
    0x4d, 0x50, 0x55, 0x44, 2, 1, 0, 0, 0, 1, 0, 0, 0, 0, 0, 8, 0, 0, 0, 0, 0, 0, 0, 1, 0, 0, 0, 0,
    0, 0, 0, 0, 3, 0, 0, 0, 0, 0, 0, 0,
];

/// Rank 0 sends the first byte of transfer 0 to rank 1, in frame 0 of job 1.
const PART: [u8; 45] = [
    0x4d, 0x50, 0x55, 0x44, 2, 1, 0, 0, 0, 1, 0, 0, 0, 0, 0, 13, 0, 0, 0, 0, 0, 0, 0, 1, 0, 0, 0,
    0, 0, 0, 0, 0, 4, 0, 0, 0, 0, 0, 0, 0, 0, 0, 0, 0, 7,
];

/// How an engine refuses bytes that spell a datagram.
fn number_of_unheard(engine: &mut Engine, bytes: &[u8]) -> Option<u8> {
    let _datagram = datagram::read(bytes).ok()?;
    engine.on_datagram(bytes).err().map(Refusal::number)
}

/// How an announcement under another number than the next, an answer to no transfer and data of none are refused.
fn refuse_parts(engine: &mut Engine) -> (Option<u8>, Option<u8>, Option<u8>) {
    let request = number_of_unheard(engine, &REQUEST);
    let clear = number_of_unheard(engine, &CLEAR);
    (request, clear, number_of_unheard(engine, &PART))
}

/// How many datagrams go out where these frames are refused, and how a message under the same number goes through then.
fn pass_after_refused(
    alloc: Global,
    sender: &mut Engine,
    receiver: &mut Engine,
) -> Option<(usize, bool, Option<u64>, bool)> {
    if refuse_parts(receiver) != (Some(30), Some(30), Some(30)) {
        return None;
    }
    let emitted = emitted_count(receiver);
    let (blocked, count, idle) = pass_message(alloc, sender, receiver)?;
    Some((emitted, blocked, count, idle))
}

fn refused_parts(alloc: Global) -> Option<(usize, bool, Option<u64>, bool)> {
    let mut ranks = two_ranks(alloc, 0, 0)?;
    match ranks.as_mut_slice() {
        [sender, receiver] => pass_after_refused(alloc, sender, receiver),
        _ => None,
    }
}

#[test]
fn frames_of_no_transfer_are_refused_and_change_nothing(rt: HostRuntime) {
    assert_eq!(rt; refused_parts(rt.alloc()), Some((0, true, Some(1), true)));
}

/// The number and the bits of the acknowledgement that an engine emitted first, and how many datagrams it emitted.
fn acknowledged(engine: &mut Engine) -> Option<(u64, u64, usize)> {
    let emitted = engine.take_out();
    let (_rank, bytes) = emitted.first()?;
    let first = datagram::read(bytes.as_slice()).ok()?;
    match first.content {
        datagram::Content::Ack(held) => Some((first.header.sequence, held, emitted.len())),
        _ => None,
    }
}

/// What is acknowledged where data of no transfer come before their turn, then the message before them, and then
/// another one.
fn give_up(
    alloc: Global,
    sender: &mut Engine,
    receiver: &mut Engine,
) -> Option<[(u64, u64, usize); 3]> {
    let mut early = PART;
    early[31] = 1;
    receiver.on_datagram(&early).ok()?;
    let held = acknowledged(receiver)?;
    let _first = start_send(alloc, sender)?;
    deliver(sender, receiver)?;
    let given_up = acknowledged(receiver)?;
    let _second = start_send(alloc, sender)?;
    deliver(sender, receiver)?;
    Some([held, given_up, acknowledged(receiver)?])
}

fn given_up(alloc: Global) -> Option<[(u64, u64, usize); 3]> {
    let mut ranks = two_ranks(alloc, 0, 0)?;
    match ranks.as_mut_slice() {
        [sender, receiver] => give_up(alloc, sender, receiver),
        _ => None,
    }
}

/// It is taken out, and neither taken nor acknowledged: another frame comes under its number.
#[test]
fn a_held_frame_that_is_not_due_in_its_turn_is_given_up(rt: HostRuntime) {
    assert_eq!(rt;
        given_up(rt.alloc()),
        Some([(0, 2, 1), (1, 0, 1), (2, 0, 1)])
    );
}

/// How a frame that comes 64 numbers early is refused, one that comes 63 early is acknowledged, and how
/// acknowledgements of what wasn't sent are refused, by their number and by their bits.
fn out_of_window(
    engine: &mut Engine,
) -> Option<(Option<u8>, (u64, u64, usize), Option<u8>, Option<u8>)> {
    let mut early = PART;
    early[31] = 64;
    let far = number_of_unheard(engine, &early);
    early[31] = 63;
    engine.on_datagram(&early).ok()?;
    let held = acknowledged(engine)?;
    let mut bytes = ACKNOWLEDGEMENT;
    bytes[31] = 1;
    let number = number_of_unheard(engine, &bytes);
    bytes[31] = 0;
    bytes[39] = 2;
    Some((far, held, number, number_of_unheard(engine, &bytes)))
}

/// Rank 0 acknowledges nothing of rank 1, in job 1.
const ACKNOWLEDGEMENT: [u8; 40] = [
    0x4d, 0x50, 0x55, 0x44, 2, 2, 0, 0, 0, 1, 0, 0, 0, 0, 0, 8, 0, 0, 0, 0, 0, 0, 0, 1, 0, 0, 0, 0,
    0, 0, 0, 0, 0, 0, 0, 0, 0, 0, 0, 0,
];

fn window(alloc: Global) -> Option<(Option<u8>, (u64, u64, usize), Option<u8>, Option<u8>)> {
    let mut engine = rank_of_two(alloc, 1, 0).ok()?;
    let told = out_of_window(&mut engine);
    drop(engine);
    told
}

#[test]
fn the_window_has_64_frames(rt: HostRuntime) {
    let highest = 9_223_372_036_854_775_808;
    assert_eq!(rt;
        window(rt.alloc()),
        Some((Some(31), (0, highest, 1), Some(31), Some(31)))
    );
}

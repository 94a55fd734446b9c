//! What the limit of a job's messages decides, and how long a frame waits for its acknowledgement.

use crate::pairs::{copies, deliver, rank_of_two, rank_with_limit};
use engine::{Call, Completion, Engine, Receive, Reply, Send};
use requests::{Answer, Outcome, Region, Request};
use std::alloc::Global;
use vocabulary::{Endpoint, MessageLimit, Mode, Source};

/// One byte more than scripts may send.
const BEYOND: usize = 1_048_577;

/// More rounds than so many bytes take, of 64 frames with 1,024 bytes each.
const ROUNDS: u32 = 64;

fn rank(alloc: Global, rank: u16, limit: MessageLimit) -> Option<Engine> {
    let endpoint = Endpoint {
        rank,
        incarnation: 0,
    };
    rank_with_limit(alloc, endpoint, limit).ok()
}

/// The request that a call starts, or the number of its refusal.
fn ask(engine: &mut Engine, call: Call) -> Result<Option<Request>, u8> {
    let reply = engine.call(call);
    let said = match &reply {
        Reply::Started(request) => Ok(Some(*request)),
        Reply::Refused(refused, _call) => Err(refused.number()),
        _ => Ok(None),
    };
    drop(reply);
    said
}

/// So many bytes go to rank 1.
fn send(alloc: Global, engine: &mut Engine, count: usize) -> Option<Result<Option<Request>, u8>> {
    let call = Call::Isend(Send {
        mode: Mode::Standard,
        comm: Some(0),
        target: Source::Rank(1),
        tag: Some(3),
        from: Region::whole(copies(alloc, 7, count)?),
    });
    Some(ask(engine, call))
}

/// By which number a send of so many bytes is refused, if it is.
fn refusal_of_send(alloc: Global, limit: MessageLimit, count: usize) -> Option<Option<u8>> {
    let mut engine = rank(alloc, 0, limit)?;
    let said = send(alloc, &mut engine, count);
    drop(engine);
    Some(said?.err())
}

#[test]
fn a_send_has_as_many_bytes_as_its_job_allows(rt: HostRuntime) {
    let alloc = rt.alloc();
    assert_eq!(rt;
        refusal_of_send(alloc, MessageLimit::least(), BEYOND),
        Some(Some(1))
    );
    assert_eq!(rt;
        refusal_of_send(alloc, MessageLimit::greatest(), BEYOND),
        Some(None)
    );
}

/// How the frame of a message of so many bytes is refused, which goes by its sender's limits, at a rank of a script.
fn refusal_of_frame(alloc: Global, limit: MessageLimit, count: usize) -> Option<Option<u8>> {
    let mut sender = rank(alloc, 0, limit)?;
    let mut receiver = rank(alloc, 1, MessageLimit::least())?;
    let sent = send(alloc, &mut sender, count);
    let emitted = sender.take_out();
    let mut number = None;
    for (_target, bytes) in emitted.as_slice() {
        number = receiver
            .on_datagram(bytes.as_slice())
            .err()
            .map(engine::Refusal::number);
    }
    drop(emitted);
    drop(sender);
    drop(receiver);
    sent?.ok()?;
    Some(number)
}

#[test]
fn an_announcement_beyond_the_limit_is_no_frame(rt: HostRuntime) {
    assert_eq!(rt;
        refusal_of_frame(rt.alloc(), MessageLimit::greatest(), BEYOND),
        Some(Some(30))
    );
}

/// The limit of a message of scripts, with the longest frames that a job may have.
fn with_long_frames() -> Option<MessageLimit> {
    MessageLimit::least().with_frame(61_440)
}

fn refusal_of_long_frame(alloc: Global) -> Option<Option<u8>> {
    refusal_of_frame(alloc, with_long_frames()?, 2_000)
}

#[test]
fn a_frame_is_no_longer_than_those_of_its_job(rt: HostRuntime) {
    assert_eq!(rt; refusal_of_long_frame(rt.alloc()), Some(Some(25)));
}

/// How many elements the wait that was blocked received.
fn received(engine: &mut Engine) -> Option<u64> {
    let completion = engine.take_completion();
    let count = match &completion {
        Some(Completion::Requests(Answer::One(Outcome::Received(status, _buffer)))) => Some(
            status.count,
        ),
        _ => None,
    };
    drop(completion);
    count
}

/// How many bytes come of a message beyond the limit of scripts, where the job allows it.
fn bytes_that_come(alloc: Global, sender: &mut Engine, receiver: &mut Engine) -> Option<u64> {
    let into = Call::Irecv(Receive {
        comm: Some(0),
        source: Source::Rank(0),
        tag: Some(3),
        into: Region::whole(copies(alloc, 0, BEYOND)?),
    });
    let request = ask(receiver, into).ok()?;
    let _blocked = ask(receiver, Call::Wait(request)).ok()?;
    send(alloc, sender, BEYOND)?.ok()?;
    for _round in 0..ROUNDS {
        if deliver(sender, receiver)? == 0 {
            break;
        }
        deliver(receiver, sender)?;
    }
    received(receiver)
}

fn transfer(alloc: Global, limit: MessageLimit) -> Option<u64> {
    let mut sender = rank(alloc, 0, limit)?;
    let mut receiver = rank(alloc, 1, limit)?;
    let count = bytes_that_come(alloc, &mut sender, &mut receiver);
    drop(sender);
    drop(receiver);
    count
}

#[test]
fn a_message_beyond_the_limit_of_scripts_comes_whole(rt: HostRuntime) {
    assert_eq!(rt;
        transfer(rt.alloc(), MessageLimit::greatest()),
        Some(1_048_577)
    );
}

fn transfer_in_long_frames(alloc: Global) -> Option<u64> {
    transfer(alloc, MessageLimit::greatest().with_frame(61_440)?)
}

#[test]
fn a_message_comes_whole_in_frames_of_61_440_bytes(rt: HostRuntime) {
    assert_eq!(rt; transfer_in_long_frames(rt.alloc()), Some(1_048_577));
}

/// How many datagrams go out at 10 ms of a frame that went out at 0.
fn sent_again(alloc: Global, wait: Option<u64>) -> Option<usize> {
    let mut engine = rank_of_two(alloc, 0, 0).ok()?;
    if let Some(wait) = wait {
        engine.set_wait(1, wait);
    }
    let sent = send(alloc, &mut engine, 1);
    let first = engine.take_out();
    drop(first);
    let ticked = engine.tick(10);
    let again = engine.take_out();
    let count = again.len();
    drop(again);
    drop(engine);
    sent?.ok()?;
    ticked.ok()?;
    Some(count)
}

#[test]
fn a_frame_waits_as_long_as_its_session_says(rt: HostRuntime) {
    let alloc = rt.alloc();
    assert_eq!(rt; sent_again(alloc, None), Some(0));
    assert_eq!(rt; sent_again(alloc, Some(5)), Some(1));
}

//! Synchronous sends and probes of one rank and of two. Helpers take engines by `&mut` and answer plain values, or
//! nothing where a step failed; a test makes the engines, calls one helper and compares.

use crate::pairs::{copies, deliver, rank_of_two, two_ranks};
use datatypes::Buffer;
use engine::{Call, Completion, Engine, Layout, Probe, Receive, Refusal, Reply, Send};
use requests::{Answer, Outcome, Places, Region, Request};
use std::alloc::Global;
use vocabulary::{BasicType, Mode, Source, Status};

/// What a reply or a completion says, without the memory that it owns.
#[derive(Clone, Copy, Debug, PartialEq, Eq)]
enum Said {
    Started(Request),
    Pending,
    Blocked,
    /// The number of a refusal.
    Refused(u8),
    Sent,
    /// How many elements a receive got.
    Received(u64),
    /// A probe found nothing.
    Nothing,
    /// The source of the message that a probe found, its tag and how many elements it has.
    Found(Source, Option<u32>, u64),
    /// The message that a matching probe took out, and how many elements it has.
    Taken(Option<Request>, u64),
    Other,
}

fn said_by_answer(answer: &Answer) -> Said {
    match answer {
        Answer::One(Outcome::Sent) => Said::Sent,
        Answer::One(Outcome::Received(status, _buffer)) => Said::Received(status.count),
        _ => Said::Other,
    }
}

fn said_by_probe(found: Option<Status>) -> Said {
    match found {
        None => Said::Nothing,
        Some(status) => Said::Found(status.source, status.tag, status.count),
    }
}

fn said_by_reply(reply: &Reply) -> Said {
    match reply {
        Reply::Started(request) => Said::Started(*request),
        Reply::Done(answer) => said_by_answer(answer),
        Reply::Pending => Said::Pending,
        Reply::Blocked => Said::Blocked,
        Reply::Probed(found) => said_by_probe(*found),
        Reply::Matched(None) => Said::Nothing,
        Reply::Matched(Some((message, status))) => Said::Taken(*message, status.count),
        Reply::Refused(refused, _call) => Said::Refused(refused.number()),
        _ => Said::Other,
    }
}

/// What a call is answered. The reply is dropped in generic code: in place its drop would be followed anew.
fn ask(engine: &mut Engine, call: Call) -> Said {
    let reply = engine.call(call);
    let said = said_by_reply(&reply);
    drop(reply);
    said
}

/// The answer of a call on requests that was blocked.
fn completed(engine: &mut Engine) -> Said {
    let completion = engine.take_completion();
    let said = match &completion {
        Some(Completion::Requests(answer)) => said_by_answer(answer),
        _ => Said::Other,
    };
    drop(completion);
    said
}

fn started(said: Said) -> Option<Request> {
    match said {
        Said::Started(request) => Some(request),
        _ => None,
    }
}

fn taken(said: Said) -> Option<Request> {
    match said {
        Said::Taken(message, _count) => message,
        _ => None,
    }
}

fn number_of_refusal(said: Said) -> Option<u8> {
    match said {
        Said::Refused(number) => Some(number),
        _ => None,
    }
}

/// A synchronous send of so many bytes to a rank of world.
fn synchronous(alloc: Global, rank: u16, count: usize) -> Option<Call> {
    Some(Call::Isend(Send {
        mode: Mode::Synchronous,
        comm: Some(0),
        target: Source::Rank(rank),
        tag: Some(3),
        from: Region::whole(copies(alloc, 7, count)?),
    }))
}

/// What a probe of world asks for.
fn probe_of(source: Source, tag: Option<u32>) -> Probe {
    Probe {
        comm: Some(0),
        source,
        tag,
    }
}

/// What a probe of world for any message is answered.
fn look(engine: &mut Engine) -> Said {
    ask(engine, Call::Iprobe(probe_of(Source::Any, None)))
}

/// What a matching probe of world for any message is answered.
fn search(engine: &mut Engine) -> Said {
    ask(engine, Call::Improbe(probe_of(Source::Any, None)))
}

/// What the receive of a message into so many places is answered.
fn receive(
    alloc: Global,
    engine: &mut Engine,
    message: Option<Request>,
    places: usize,
) -> Option<Said> {
    let into = Region::whole(copies(alloc, 0, places)?);
    Some(ask(engine, Call::Mrecv(message, into)))
}

/// A receive of any message of world into two places is started.
fn start_receive(alloc: Global, engine: &mut Engine) -> Option<Request> {
    let call = Call::Irecv(Receive {
        comm: Some(0),
        source: Source::Any,
        tag: None,
        into: Region::whole(copies(alloc, 0, 2)?),
    });
    started(ask(engine, call))
}

/// What a test of the request is answered.
fn test(engine: &mut Engine, request: Request) -> Said {
    ask(engine, Call::Test(Some(request)))
}

/// A synchronous send of one byte: what its test is answered where its message lies at the other rank, and where a
/// receive has it.
fn wait_for_match(alloc: Global, sender: &mut Engine, receiver: &mut Engine) -> Option<[Said; 3]> {
    let sent = started(ask(sender, synchronous(alloc, 1, 1)?))?;
    deliver(sender, receiver)?;
    deliver(receiver, sender)?;
    let before = test(sender, sent);
    let wanted = start_receive(alloc, receiver)?;
    deliver(receiver, sender)?;
    let after = test(sender, sent);
    deliver(sender, receiver)?;
    Some([before, after, test(receiver, wanted)])
}

fn synchronous_send(alloc: Global) -> Option<[Said; 3]> {
    let mut ranks = two_ranks(alloc, 0, 0)?;
    match ranks.as_mut_slice() {
        [sender, receiver] => wait_for_match(alloc, sender, receiver),
        _ => None,
    }
}

#[test]
fn a_synchronous_send_ends_once_a_receive_has_its_message(rt: HostRuntime) {
    assert_eq!(rt;
        synchronous_send(rt.alloc()),
        Some([Said::Pending, Said::Sent, Said::Received(1)])
    );
}

/// What probes are answered before a message of one byte has come, twice when it has, and once a receive has it.
fn probe_four_times(
    alloc: Global,
    sender: &mut Engine,
    receiver: &mut Engine,
) -> Option<[Said; 4]> {
    let before = look(receiver);
    let _sent = started(ask(sender, synchronous(alloc, 1, 1)?))?;
    deliver(sender, receiver)?;
    let first = look(receiver);
    let second = look(receiver);
    let _wanted = start_receive(alloc, receiver)?;
    Some([before, first, second, look(receiver)])
}

fn probes(alloc: Global) -> Option<[Said; 4]> {
    let mut ranks = two_ranks(alloc, 0, 0)?;
    match ranks.as_mut_slice() {
        [sender, receiver] => probe_four_times(alloc, sender, receiver),
        _ => None,
    }
}

#[test]
fn a_probe_tells_of_a_message_and_leaves_it(rt: HostRuntime) {
    let found = Said::Found(Source::Rank(0), Some(3), 1);
    assert_eq!(rt;
        probes(rt.alloc()),
        Some([Said::Nothing, found, found, Said::Nothing])
    );
}

/// A message of one byte is taken out: what a further matching probe, a test of its send, its receive, what that is
/// told once its data have come, a test of its send then, and a further receive of it are answered.
fn take_out_and_receive(
    alloc: Global,
    sender: &mut Engine,
    receiver: &mut Engine,
) -> Option<[Said; 6]> {
    let sent = started(ask(sender, synchronous(alloc, 1, 1)?))?;
    deliver(sender, receiver)?;
    let message = taken(search(receiver))?;
    let further = search(receiver);
    deliver(receiver, sender)?;
    let unmatched = test(sender, sent);
    let waits = receive(alloc, receiver, Some(message), 1)?;
    deliver(receiver, sender)?;
    let matched = test(sender, sent);
    deliver(sender, receiver)?;
    let told = completed(receiver);
    let again = receive(alloc, receiver, Some(message), 1)?;
    Some([further, unmatched, waits, told, matched, again])
}

fn taking_out(alloc: Global) -> Option<[Said; 6]> {
    let mut ranks = two_ranks(alloc, 0, 0)?;
    match ranks.as_mut_slice() {
        [sender, receiver] => take_out_and_receive(alloc, sender, receiver),
        _ => None,
    }
}

#[test]
fn a_message_that_is_taken_out_is_received_once(rt: HostRuntime) {
    assert_eq!(rt;
        taking_out(rt.alloc()),
        Some([
            Said::Nothing,
            Said::Pending,
            Said::Blocked,
            Said::Received(1),
            Said::Sent,
            Said::Refused(6)
        ])
    );
}

/// A synchronous send of the rank to itself: what its test is answered, what is emitted by it, and what it is told once
/// its message is received that was taken out.
fn send_to_itself(alloc: Global, engine: &mut Engine) -> Option<(Said, usize, Said, Said)> {
    let sent = started(ask(engine, synchronous(alloc, 0, 1)?))?;
    let before = test(engine, sent);
    let message = taken(search(engine))?;
    let received = receive(alloc, engine, Some(message), 1)?;
    let emitted = engine.take_out();
    Some((before, emitted.len(), received, test(engine, sent)))
}

fn to_itself(alloc: Global) -> Option<(Said, usize, Said, Said)> {
    let mut engine = rank_of_two(alloc, 0, 0).ok()?;
    let told = send_to_itself(alloc, &mut engine);
    drop(engine);
    told
}

#[test]
fn a_synchronous_send_to_itself_waits_for_its_match(rt: HostRuntime) {
    assert_eq!(rt;
        to_itself(rt.alloc()),
        Some((Said::Pending, 0, Said::Received(1), Said::Sent))
    );
}

/// The number with which each of both probes is refused.
fn refused_probes(engine: &mut Engine, probe: Probe) -> [Option<u8>; 2] {
    [
        number_of_refusal(ask(engine, Call::Iprobe(probe))),
        number_of_refusal(ask(engine, Call::Improbe(probe))),
    ]
}

/// How probes are refused that break the rules 4, 3 and 5, then 3 and 5, and then 5 alone.
fn faults_of_probes(engine: &mut Engine) -> [[Option<u8>; 2]; 3] {
    let tag = Some(2_147_483_648);
    let far = Source::Rank(2);
    let nowhere = Probe {
        comm: None,
        source: far,
        tag,
    };
    [
        refused_probes(engine, nowhere),
        refused_probes(engine, probe_of(far, tag)),
        refused_probes(engine, probe_of(far, None)),
    ]
}

/// What the receive of a message into so many copies of an element of this type, in a buffer of one byte, is answered.
fn receive_copies(
    alloc: Global,
    engine: &mut Engine,
    message: Option<Request>,
    basic: BasicType,
    count: u64,
) -> Option<Said> {
    let layout = Layout::new(alloc, basic).ok()?;
    let into = Region {
        buffer: copies(alloc, 0, 1)?,
        places: Places::Copies(layout, count),
    };
    Some(ask(engine, Call::Mrecv(message, into)))
}

/// How the receive of a message is refused that breaks the rules 6, 2 and 1, then 2 and 1, and then 1 alone, and what
/// it is answered where it breaks none: the message is none there is, and then that of the null process.
fn faults_of_receives(alloc: Global, engine: &mut Engine) -> Option<[Said; 4]> {
    let none = Some(Request { key: 0, serial: 0 });
    Some([
        receive_copies(alloc, engine, none, BasicType::Int32, 2)?,
        receive_copies(alloc, engine, None, BasicType::Int32, 2)?,
        receive_copies(alloc, engine, None, BasicType::Uint8, 2)?,
        receive_copies(alloc, engine, None, BasicType::Uint8, 1)?,
    ])
}

/// The same, and how a synchronous send is refused that names no communicator, has too many bytes and the wildcard for
/// its tag, and one without the first; and both probes while an earlier call is blocked.
fn faults_in_order(
    alloc: Global,
    engine: &mut Engine,
) -> Option<([[Option<u8>; 2]; 3], [Said; 4], [Said; 2], [Option<u8>; 2])> {
    let probes = faults_of_probes(engine);
    let receives = faults_of_receives(alloc, engine)?;
    let sends = [
        ask(engine, too_large(alloc, None)?),
        ask(engine, too_large(alloc, Some(0))?),
    ];
    let wanted = start_receive(alloc, engine)?;
    let _blocked = ask(engine, Call::Wait(Some(wanted)));
    Some((
        probes,
        receives,
        sends,
        refused_probes(engine, probe_of(Source::Any, None)),
    ))
}

/// A synchronous send of a byte too many, without a tag.
fn too_large(alloc: Global, comm: Option<usize>) -> Option<Call> {
    Some(Call::Isend(Send {
        mode: Mode::Synchronous,
        comm,
        target: Source::Rank(1),
        tag: None,
        from: Region::whole(copies(alloc, 7, 1_048_577)?),
    }))
}

fn faults(alloc: Global) -> Option<([[Option<u8>; 2]; 3], [Said; 4], [Said; 2], [Option<u8>; 2])> {
    let mut engine = rank_of_two(alloc, 0, 0).ok()?;
    let told = faults_in_order(alloc, &mut engine);
    drop(engine);
    told
}

#[test]
fn the_first_rule_that_is_broken_is_told(rt: HostRuntime) {
    let alike = |number| [Some(number), Some(number)];
    assert_eq!(rt;
        faults(rt.alloc()),
        Some((
            [alike(4), alike(3), alike(5)],
            [
                Said::Refused(6),
                Said::Refused(2),
                Said::Refused(1),
                Said::Received(0)
            ],
            [Said::Refused(4), Said::Refused(1)],
            alike(6)
        ))
    );
}

/// A synchronous send of the rank to itself, of no elements.
fn to_own_rank(alloc: Global) -> Call {
    Call::Isend(Send {
        mode: Mode::Synchronous,
        comm: Some(0),
        target: Source::Rank(0),
        tag: Some(3),
        from: Region::whole(Buffer::new(alloc, BasicType::Uint8)),
    })
}

/// So many sends of the rank to itself are started.
fn fill(alloc: Global, engine: &mut Engine, count: u32) -> Option<()> {
    for _number in 0..count {
        started(ask(engine, to_own_rank(alloc)))?;
    }
    Some(())
}

/// What both probes are answered where 65,536 requests are there: a matching one that finds nothing, one that finds a
/// message, and a look at that.
fn probe_when_full(alloc: Global, engine: &mut Engine) -> Option<[Said; 3]> {
    fill(alloc, engine, 65_536)?;
    let other = Probe {
        comm: Some(0),
        source: Source::Any,
        tag: Some(4),
    };
    let nothing = ask(engine, Call::Improbe(other));
    let full = search(engine);
    Some([nothing, full, look(engine)])
}

fn limit(alloc: Global) -> Option<[Said; 3]> {
    let mut engine = rank_of_two(alloc, 0, 0).ok()?;
    let told = probe_when_full(alloc, &mut engine);
    drop(engine);
    told
}

#[test]
fn a_message_needs_one_of_65536_places_where_it_is_found(rt: HostRuntime) {
    assert_eq!(rt;
        limit(rt.alloc()),
        Some([
            Said::Nothing,
            Said::Refused(13),
            Said::Found(Source::Rank(0), Some(3), 0)
        ])
    );
}

/// Rank 0 announces a payload of 1,025 bytes to rank 1 as transfer 0, in frame 0 of job 1, as of a synchronous send.
const PAYLOAD: [u8; 56] = [
    0x4d, 0x50, 0x55, 0x44, 2, 1, 0, 0, 0, 1, 0, 0, 0, 0, 0, 24, 0, 0, 0, 0, 0, 0, 0, 1, 0, 0, 0,
    0, 0, 0, 0, 0, 2, 1, 9, 1, 0, 0, 0, 3, 0, 0, 0, 0, 0, 0, 0, 0, 0, 0, 4, 1, 0, 0, 0, 0,
];

/// How the announcement is refused, how many datagrams go out by it, and the same of one as of a standard send.
fn announce_twice(engine: &mut Engine) -> Option<(Option<u8>, usize, Option<u8>, usize)> {
    let _datagram = datagram::read(&PAYLOAD).ok()?;
    let refused = engine.on_datagram(&PAYLOAD).err().map(Refusal::number);
    let nothing = engine.take_out();
    let mut standard = PAYLOAD;
    standard[35] = 0;
    let taken = engine.on_datagram(&standard).err().map(Refusal::number);
    let answers = engine.take_out();
    Some((refused, nothing.len(), taken, answers.len()))
}

fn announced(alloc: Global) -> Option<(Option<u8>, usize, Option<u8>, usize)> {
    let mut engine = rank_of_two(alloc, 1, 0).ok()?;
    let told = announce_twice(&mut engine);
    drop(engine);
    told
}

/// No engine announces a payload so.
#[test]
fn a_payload_that_is_announced_as_synchronous_is_refused(rt: HostRuntime) {
    assert_eq!(rt; announced(rt.alloc()), Some((Some(30), 0, None, 2)));
}

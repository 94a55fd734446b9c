//! How requests end.

use communicator_members::Members;
use datatypes::{Buffer, IndexedBlock, Layout};
use requests::*;
use std::alloc::Global;
use vocabulary::{BasicType, Source, Status};

/// What a look at a request gave.
#[derive(Clone, Copy, Debug, PartialEq, Eq)]
enum Seen {
    Absent,
    Pending,
    Sent,
    Received(Status),
    Replaced,
    Cancelled,
    Other,
}

fn look(requests: &mut Requests, request: Request) -> Seen {
    match requests.test(request) {
        Tested::Absent => Seen::Absent,
        Tested::Pending => Seen::Pending,
        Tested::Done(Outcome::Sent) => Seen::Sent,
        Tested::Done(Outcome::Received(status, _buffer)) => Seen::Received(status),
        Tested::Done(Outcome::Replaced(Some(_buffer))) => Seen::Replaced,
        Tested::Done(Outcome::Cancelled(_buffer)) => Seen::Cancelled,
        Tested::Done(_) => Seen::Other,
    }
}

fn empty_status() -> Status {
    Status {
        source: Source::Rank(1),
        tag: Some(2),
        count: 0,
    }
}

/// The region, if data can be received into it.
fn judged(region: Region) -> Option<ReceiveRegion> {
    if region.is_unfit_to_receive() || region.is_too_short() {
        return None;
    }
    Some(ReceiveRegion::new(region))
}

fn receiving(alloc: Global) -> Option<RequestProgress> {
    let region = Region::whole(Buffer::new(alloc, BasicType::Byte));
    Some(RequestProgress::Receiving(Posted {
        into: judged(region)?,
        group: None,
    }))
}

/// What is seen of a request before an empty message comes to it, then, and after that.
fn receive(alloc: Global, requests: &mut Requests, request: Request) -> [Seen; 3] {
    let before = look(requests, request);
    requests.finish(
        request.key,
        empty_status(),
        Buffer::new(alloc, BasicType::Byte),
    );
    [before, look(requests, request), look(requests, request)]
}

fn received_once(alloc: Global) -> Option<[Seen; 3]> {
    let mut requests = Requests::new(alloc);
    requests.reserve().ok()?;
    let request = requests.start(receiving(alloc)?);
    Some(receive(alloc, &mut requests, request))
}

#[test]
fn a_receive_ends_once(rt: HostRuntime) {
    let seen = [Seen::Pending, Seen::Received(empty_status()), Seen::Absent];
    assert_eq!(rt; received_once(rt.alloc()), Some(seen));
}

/// What a receive on a communicator of ranks 4 and 2 of world sees of an empty message from this rank of world.
fn received_in_group(alloc: Global, sender: u16) -> Option<Seen> {
    let mut requests = Requests::new(alloc);
    requests.reserve().ok()?;
    let group = Some(Members::from_slice(alloc, &[4, 2]).ok()?);
    let into = judged(Region::whole(Buffer::new(alloc, BasicType::Byte)))?;
    let request = requests.start(RequestProgress::Receiving(Posted { into, group }));
    let status = Status {
        source: Source::Rank(sender),
        ..empty_status()
    };
    requests.finish(request.key, status, Buffer::new(alloc, BasicType::Byte));
    Some(look(&mut requests, request))
}

#[test]
fn a_status_names_a_rank_of_the_communicator(rt: HostRuntime) {
    for (sender, rank) in [(4, 0), (2, 1)] {
        let status = Status {
            source: Source::Rank(rank),
            ..empty_status()
        };
        assert_eq!(rt;
            received_in_group(rt.alloc(), sender),
            Some(Seen::Received(status))
        );
    }
}

/// What is seen of a receive and of a finished send, and of a key that was never given, once all that wait are
/// replaced.
fn replaced(alloc: Global) -> Option<[Seen; 2]> {
    let mut requests = Requests::new(alloc);
    requests.reserve().ok()?;
    let waiting = requests.start(receiving(alloc)?);
    requests.reserve().ok()?;
    let finished = requests.start(RequestProgress::Finished(Outcome::Sent));
    requests.replace_each(&[waiting.key, finished.key, 7]);
    Some([look(&mut requests, waiting), look(&mut requests, finished)])
}

#[test]
fn a_receive_ends_where_its_rank_is_replaced(rt: HostRuntime) {
    assert_eq!(rt; replaced(rt.alloc()), Some([Seen::Replaced, Seen::Sent]));
}

/// What is seen of a receive that was cancelled, and of a finished send of which a cancel was asked.
fn cancelled(alloc: Global) -> Option<[Seen; 2]> {
    let mut requests = Requests::new(alloc);
    requests.reserve().ok()?;
    let waiting = requests.start(receiving(alloc)?);
    requests.reserve().ok()?;
    let finished = requests.start(RequestProgress::Finished(Outcome::Sent));
    requests.cancel(waiting);
    requests.cancel(finished);
    Some([look(&mut requests, waiting), look(&mut requests, finished)])
}

#[test]
fn a_receive_that_waits_is_cancelled(rt: HostRuntime) {
    assert_eq!(rt; cancelled(rt.alloc()), Some([Seen::Cancelled, Seen::Sent]));
}

fn request(key: usize, serial: u64) -> Option<Request> {
    Some(Request { key, serial })
}

/// Whether a list of these requests and the null one, twice, names one twice.
fn names_twice(alloc: Global, first: Option<Request>, second: Option<Request>) -> Option<bool> {
    let requests = vec![in alloc; None, first, second, None].ok()?;
    let list = RequestList::new(alloc, requests).ok()?;
    Some(list.names_twice())
}

#[test]
fn a_list_names_a_request_once_or_twice(rt: HostRuntime) {
    let alloc = rt.alloc();
    assert_eq!(rt;
        names_twice(alloc, request(1, 2), request(2, 1)),
        Some(false)
    );
    assert_eq!(rt;
        names_twice(alloc, request(1, 2), request(1, 3)),
        Some(false)
    );
    assert_eq!(rt;
        names_twice(alloc, request(1, 2), request(1, 2)),
        Some(true)
    );
}

/// The bytes of six zeros of one byte each once the message 7 8 was received into the first places of the blocks of two
/// from 1 and one from 5 on (MPI 3.1, 4.1.2).
fn received_through(alloc: Global) -> Option<[u8; 6]> {
    let layout = Layout::new(alloc, BasicType::Byte).ok()?;
    let blocks = [
        IndexedBlock {
            length: 2,
            displacement: 1,
        },
        IndexedBlock {
            length: 1,
            displacement: 5,
        },
    ];
    let layout = layout.indexed(alloc, &blocks).ok()?;
    let region = Region {
        buffer: bytes(alloc, &[0; 6])?,
        places: Places::Copies(layout, 1),
    };
    let message = bytes(alloc, &[7, 8])?;
    match receive_outcome(judged(region)?, empty_status(), message) {
        Outcome::Received(_status, buffer) => match buffer.into_whole().as_bytes() {
            [a, b, c, d, e, f] => Some([*a, *b, *c, *d, *e, *f]),
            _ => None,
        },
        _ => None,
    }
}

fn bytes(alloc: Global, numbers: &[u8]) -> Option<Buffer> {
    let bytes = Vec::from_slice(alloc, numbers).ok()?;
    Some(Buffer::from_bytes(BasicType::Byte, bytes))
}

#[test]
fn a_message_goes_to_the_places_of_its_layout(rt: HostRuntime) {
    assert_eq!(rt; received_through(rt.alloc()), Some([0, 7, 8, 0, 0, 0]));
}

#[test]
fn failures_have_numbers(rt: HostRuntime) {
    assert_eq!(rt; Failure::WrongType.number(), 2);
    assert_eq!(rt; Failure::Truncated.number(), 10);
}

/// The status of a message of one element.
fn status_of_one() -> Status {
    Status {
        count: 1,
        ..empty_status()
    }
}

/// Whether the receive under a key wants one byte, and whether it wants two.
fn wanted(requests: &Requests, key: usize) -> [bool; 2] {
    [
        requests.wants(key, BasicType::Byte, 1),
        requests.wants(key, BasicType::Byte, 2),
    ]
}

/// What is seen of a receive that collects an announced message, before its data are there and then.
fn collect(requests: &mut Requests, request: Request, data: Buffer) -> [Seen; 2] {
    requests.announce(request.key, status_of_one(), BasicType::Byte);
    let before = look(requests, request);
    requests.deliver(request.key, data);
    [before, look(requests, request)]
}

/// A receive of one byte.
fn receiving_one(alloc: Global) -> Option<RequestProgress> {
    let region = Region::whole(bytes(alloc, &[0])?);
    Some(RequestProgress::Receiving(Posted {
        group: None,
        into: judged(region)?,
    }))
}

/// Whether the request has the key that was told before, what it wants, and what is seen of it.
fn collected(alloc: Global) -> Option<(bool, [bool; 2], [Seen; 2])> {
    let mut requests = Requests::new(alloc);
    requests.reserve().ok()?;
    let key = requests.next_key();
    let request = requests.start(receiving_one(alloc)?);
    let wants = wanted(&requests, key);
    let seen = collect(&mut requests, request, bytes(alloc, &[5])?);
    Some((request.key == key, wants, seen))
}

#[test]
fn a_receive_collects_what_was_announced(rt: HostRuntime) {
    let seen = [Seen::Pending, Seen::Received(status_of_one())];
    assert_eq!(rt; collected(rt.alloc()), Some((true, [true, false], seen)));
}

/// What is seen of a send that is offered, before its receiver answers and then.
fn offered(alloc: Global) -> Option<[Seen; 2]> {
    let mut requests = Requests::new(alloc);
    requests.reserve().ok()?;
    let request = requests.start(RequestProgress::Offering);
    let before = look(&mut requests, request);
    requests.finish_send(request.key);
    Some([before, look(&mut requests, request)])
}

#[test]
fn a_send_that_is_offered_ends_with_its_answer(rt: HostRuntime) {
    assert_eq!(rt; offered(rt.alloc()), Some([Seen::Pending, Seen::Sent]));
}

/// Whether a receive without a place for an announced byte is over.
fn is_over(alloc: Global) -> Option<bool> {
    let region = judged(Region::whole(Buffer::new(alloc, BasicType::Byte)))?;
    let status = Status {
        count: 1,
        ..empty_status()
    };
    match match_announced(region, status, BasicType::Byte) {
        RequestProgress::Finished(Outcome::Ended(Failure::Truncated, _status, _buffer)) => Some(
            true,
        ),
        _ => Some(false),
    }
}

#[test]
fn a_receive_too_short_for_an_announced_message_is_over(rt: HostRuntime) {
    assert_eq!(rt; is_over(rt.alloc()), Some(true));
}

//! Payloads of collectives that are too long for a frame: announced, asked for, and sent in pieces. What passes between
//! engines takes them by `&mut` and answers plain values, so that no engine is dropped there.

use crate::entering::{Told, block, enter};
use crate::pairs::{copies, deliver, rank_of_two, two_ranks};
use engine::{Call, Engine, Entry, Region, Reply, Send};
use std::alloc::Global;
use vocabulary::{Mode, Source};

/// Datagrams go to and fro until none is left; how many went from each in each turn, the first one's first.
fn exchange(zero: &mut Engine, one: &mut Engine) -> Option<[usize; 6]> {
    let mut counts = [0; 6];
    for turn in 0..3 {
        counts[2 * turn] = deliver(zero, one)?;
        counts[2 * turn + 1] = deliver(one, zero)?;
    }
    Some(counts)
}

/// Whether a call started something.
fn is_started(engine: &mut Engine, call: Call) -> bool {
    let reply = engine.call(call);
    let started = matches!(&reply, Reply::Started(_));
    drop(reply);
    started
}

/// A send of so many bytes to rank 1 is started.
fn start_send(alloc: Global, engine: &mut Engine, count: usize) -> Option<()> {
    let call = Call::Isend(Send {
        mode: Mode::Standard,
        comm: Some(0),
        target: Source::Rank(1),
        tag: Some(4),
        from: Region::whole(copies(alloc, 8, count)?),
    });
    is_started(engine, call).then_some(())
}

/// The last byte of the transfer number of a datagram that announces something, if it does.
fn announced_number(bytes: &[u8]) -> Option<u8> {
    // Byte 32 is the kind of its frame, and 55 its last one.
    match (bytes.get(32), bytes.get(55)) {
        (Some(2), Some(number)) => Some(*number),
        _ => None,
    }
}

/// The transfer numbers of the announcements among datagrams, the first four of them.
fn announced(engine: &mut Engine) -> [Option<u8>; 4] {
    let mut numbers = [None; 4];
    let mut count = 0usize;
    let emitted = engine.take_out();
    for (_target, bytes) in emitted.as_slice() {
        let number = announced_number(bytes.as_slice());
        if number.is_none() {
            continue;
        }
        if let Some(place) = numbers.get_mut(count) {
            *place = number;
        }
        count = count.wrapping_add(1);
    }
    numbers
}

/// What a rank is told that enters a broadcast from rank 0 with so many bytes of one value, and isn't blocked.
fn broadcast(alloc: Global, engine: &mut Engine, number: u8, count: usize) -> Option<Told> {
    match enter(engine, Entry::Bcast(0, block(alloc, number, count)?)) {
        Told::Blocked | Told::Other => None,
        told => Some(told),
    }
}

/// A rank sends large messages and payloads of collectives to another one, in turn.
fn send_in_turn(alloc: Global, engine: &mut Engine) -> Option<()> {
    broadcast(alloc, engine, 7, 2000)?;
    start_send(alloc, engine, 1025)?;
    broadcast(alloc, engine, 7, 8)?;
    broadcast(alloc, engine, 7, 1009)?;
    start_send(alloc, engine, 2000)
}

/// The numbers under which that announces them.
fn numbered(alloc: Global) -> Option<[Option<u8>; 4]> {
    let mut zero = rank_of_two(alloc, 0, 0).ok()?;
    let numbers = match send_in_turn(alloc, &mut zero) {
        Some(()) => Some(announced(&mut zero)),
        None => None,
    };
    drop(zero);
    numbers
}

#[test]
fn collectives_and_messages_share_transfer_numbers(rt: HostRuntime) {
    assert_eq!(rt;
        numbered(rt.alloc()),
        Some([Some(0), Some(1), Some(2), Some(3)])
    );
}

/// The bytes with another one at a place.
fn changed(alloc: Global, bytes: &[u8], place: usize, value: u8) -> Option<Vec<u8>> {
    let mut other = Vec::from_slice(alloc, bytes).ok()?;
    *other.get_mut(place)? = value;
    Some(other)
}

/// How a datagram is refused with another byte at a place, if it is.
fn refusal_of_changed(
    alloc: Global,
    to: &mut Engine,
    bytes: &[u8],
    place: usize,
    value: u8,
) -> Option<u8> {
    let other = changed(alloc, bytes, place, value)?;
    refusal(to, other.as_slice())
}

/// The refusal of what an engine emitted last, with another byte at a place; and then it is taken as it was.
fn refused_then_taken(
    alloc: Global,
    from: &mut Engine,
    to: &mut Engine,
    place: usize,
    value: u8,
) -> Option<u8> {
    let mut last = None;
    let emitted = from.take_out();
    for (_target, bytes) in emitted.as_slice() {
        let refused = refusal_of_changed(alloc, to, bytes.as_slice(), place, value);
        if refused.is_some() {
            last = refused;
        }
        to.on_datagram(bytes.as_slice()).ok()?;
    }
    last
}

/// Another transfer than the next is announced; one is answered that isn't offered, or with 'drop'; and data come of
/// another place than is due.
fn pass_with_faults(
    alloc: Global,
    zero: &mut Engine,
    one: &mut Engine,
) -> Option<([Option<u8>; 3], Option<Told>)> {
    broadcast(alloc, zero, 7, 2000)?;
    // Byte 55 is the last one of the announcement's transfer, 33 the answer's clearance, 42 in the offset of data.
    let announcement = refused_then_taken(alloc, zero, one, 55, 1);
    let answer = refused_then_taken(alloc, one, zero, 33, 1);
    let data = refused_then_taken(alloc, zero, one, 42, 8);
    Some(([announcement, answer, data], broadcast(alloc, one, 0, 2000)))
}

/// The same between two new ranks.
fn wrong_numbers(alloc: Global) -> Option<([Option<u8>; 3], Option<Told>)> {
    let mut ranks = two_ranks(alloc, 0, 0)?;
    match ranks.as_mut_slice() {
        [zero, one] => pass_with_faults(alloc, zero, one),
        _ => None,
    }
}

#[test]
fn wrong_numbers_are_refused_and_nothing_changes(rt: HostRuntime) {
    let all = Some(Told::Gets(2000, [Some(7); 3]));
    assert_eq!(rt;
        wrong_numbers(rt.alloc()),
        Some(([Some(30), Some(30), Some(30)], all))
    );
}

/// A broadcast of 70,000 bytes passes: what it gives, how many datagrams go at the answer and in the turn after that,
/// and whether nothing is left.
fn pass_long(
    alloc: Global,
    zero: &mut Engine,
    one: &mut Engine,
) -> Option<(Option<Told>, [usize; 2], bool)> {
    broadcast(alloc, zero, 7, 70_000)?;
    let counts = exchange(zero, one)?;
    let entered = broadcast(alloc, one, 0, 70_000);
    Some((
        entered,
        [counts[2], counts[4]],
        one.is_idle() && zero.is_idle(),
    ))
}

/// The same between two new ranks.
fn long_comes(alloc: Global) -> Option<(Option<Told>, [usize; 2], bool)> {
    let mut ranks = two_ranks(alloc, 0, 0)?;
    match ranks.as_mut_slice() {
        [zero, one] => pass_long(alloc, zero, one),
        _ => None,
    }
}

#[test]
fn a_payload_of_more_than_a_window_comes_whole(rt: HostRuntime) {
    let all = Some(Told::Gets(70_000, [Some(7); 3]));
    // An acknowledgement and the first 64 of 69 pieces; once these are acknowledged, the others.
    assert_eq!(rt; long_comes(rt.alloc()), Some((all, [65, 5], true)));
}

/// How a datagram is refused, if it is.
fn refusal(to: &mut Engine, bytes: &[u8]) -> Option<u8> {
    match to.on_datagram(bytes) {
        Err(refused) => Some(refused.number()),
        Ok(()) => None,
    }
}

/// Whether a datagram has the first piece of a payload.
fn is_first_piece(bytes: &[u8]) -> bool {
    // Byte 32 is the kind of its frame, 42 in the offset of data, which begin at byte 44.
    match (bytes.get(32), bytes.get(42)) {
        (Some(4), Some(0)) => true,
        _ => false,
    }
}

/// A datagram; with the first piece of a payload another byte stands at a place.
fn with_first_changed(alloc: Global, bytes: &[u8], place: usize, value: u8) -> Option<Vec<u8>> {
    if is_first_piece(bytes) {
        return changed(alloc, bytes, place, value);
    }
    Vec::from_slice(alloc, bytes).ok()
}

/// How a datagram is refused, if it is, and when it comes again; the first piece of a payload with another byte at a
/// place.
fn refused_again(
    alloc: Global,
    to: &mut Engine,
    bytes: &[u8],
    place: usize,
    value: u8,
) -> Option<[Option<u8>; 2]> {
    let bytes = with_first_changed(alloc, bytes, place, value)?;
    match refusal(to, bytes.as_slice()) {
        None => Some([None; 2]),
        refused => Some([refused, refusal(to, bytes.as_slice())]),
    }
}

/// What an engine emitted comes to another one, the first piece of a payload with another byte at a place: how many
/// datagrams are taken, and how the last one is refused that is, and when it comes again.
fn hear_changed(
    alloc: Global,
    from: &mut Engine,
    to: &mut Engine,
    place: usize,
    value: u8,
) -> Option<(usize, [Option<u8>; 2])> {
    let mut taken = 0usize;
    let mut refused = [None; 2];
    let emitted = from.take_out();
    for (_target, bytes) in emitted.as_slice() {
        match refused_again(alloc, to, bytes.as_slice(), place, value)? {
            [None, _] => taken = taken.wrapping_add(1),
            twice => refused = twice,
        }
    }
    Some((taken, refused))
}

/// The same of the data of a broadcast of 2,000 bytes; and whether a rank that enters it then is blocked.
fn pass_changed(
    alloc: Global,
    zero: &mut Engine,
    one: &mut Engine,
    place: usize,
    value: u8,
) -> Option<(usize, [Option<u8>; 2], bool)> {
    broadcast(alloc, zero, 7, 2000)?;
    deliver(zero, one)?;
    deliver(one, zero)?;
    let (taken, refused) = hear_changed(alloc, zero, one, place, value)?;
    Some((taken, refused, broadcast(alloc, one, 0, 2000).is_none()))
}

/// The same between two new ranks.
fn unreadable(alloc: Global, place: usize, value: u8) -> Option<(usize, [Option<u8>; 2], bool)> {
    let mut ranks = two_ranks(alloc, 0, 0)?;
    match ranks.as_mut_slice() {
        [zero, one] => pass_changed(alloc, zero, one, place, value),
        _ => None,
    }
}

#[test]
fn a_payload_that_can_not_be_read_is_refused_at_its_last_piece(rt: HostRuntime) {
    // Its record has the kind 9; or it has 1,999 elements, before 2,000 bytes. The acknowledgement and the first piece
    // are taken.
    for (place, value) in [(44, 9), (55, 207)] {
        assert_eq!(rt;
            unreadable(rt.alloc(), place, value),
            Some((2, [Some(30), Some(30)], true))
        );
    }
}

//! Messages that go in pieces from rank 0 to rank 1.

use datatypes::Buffer;
use rendezvous::*;
use std::alloc::Global;
use vocabulary::{BasicType, MessageLimit};

/// A message of so many bytes, of which no two neighbours are the same.
fn message(alloc: Global, count: usize) -> Option<Buffer> {
    let Ok(mut bytes) = Vec::with_capacity(alloc, count) else {
        return None;
    };
    for place in 0..count {
        let Ok(()) = bytes.push((place % 251) as u8) else {
            return None;
        };
    }
    Some(Buffer::from_bytes(BasicType::Byte, bytes))
}

/// The number under which rank 0 begins to send a message for its request 7.
fn begin(transfers: &mut Transfers, elements: Buffer) -> Option<u32> {
    let Ok(()) = transfers.reserve_send() else {
        return None;
    };
    if transfers.is_full_to(1) {
        return None;
    }
    let next = transfers.next_to(1);
    let begun = transfers.begin_send(1, 7, elements);
    if next == begun { Some(begun) } else { None }
}

/// Whether rank 1 takes an announcement by rank 0 under this number.
fn announce(transfers: &mut Transfers, transfer: u32) -> bool {
    if !transfers.is_next(0, transfer) {
        return false;
    }
    transfers.on_rts(0, transfer);
    true
}

/// Whether rank 1 begins to collect so many bytes for its request 9.
fn collect(alloc: Global, transfers: &mut Transfers, transfer: u32, count: usize) -> bool {
    let Ok(()) = transfers.reserve_collection() else {
        return false;
    };
    match Collection::new(
        alloc,
        MessageLimit::least(),
        0,
        transfer,
        9,
        BasicType::Byte,
        count,
    ) {
        Ok(collection) => {
            transfers.collect(collection);
            true
        }
        Err(_) => false,
    }
}

/// Brings the pieces to rank 1, and answers how many until a message is handed out, and the message.
fn bring(transfers: &mut Transfers, pieces: &[Piece<'_>]) -> Option<(usize, Collected)> {
    for place in 0..pieces.len() {
        let piece = pieces[place];
        if !transfers.is_due(0, 0, piece.offset, piece.bytes) {
            return None;
        }
        if let Some(collected) = transfers.on_data(0, 0, piece.offset, piece.bytes) {
            return Some((place + 1, collected));
        }
    }
    None
}

/// In how many pieces the message that rank 0 offers arrives, for which request, and whether as it was.
fn deliver(alloc: Global, from: &Transfers, to: &mut Transfers) -> Option<(usize, usize, bool)> {
    let offer = from.offer(1, 0)?;
    let Ok(pieces) = pieces(alloc, MessageLimit::least(), &offer.elements) else {
        return None;
    };
    let (count, collected) = bring(to, pieces.as_slice())?;
    let request = collected.request;
    let came = collected.elements.into_whole();
    let is_same = came.as_bytes() == offer.elements.as_bytes();
    Some((count, request, is_same))
}

/// The same of a message of so many bytes, from its announcement on.
fn send(alloc: Global, count: usize) -> Option<(usize, usize, bool)> {
    let Ok(mut from) = Transfers::new(alloc, 2) else {
        return None;
    };
    let Ok(mut to) = Transfers::new(alloc, 2) else {
        return None;
    };
    let transfer = begin(&mut from, message(alloc, count)?)?;
    if announce(&mut to, transfer) && collect(alloc, &mut to, transfer, count) {
        deliver(alloc, &from, &mut to)
    } else {
        None
    }
}

#[test]
fn a_message_arrives_in_pieces(rt: HostRuntime) {
    assert_eq!(rt; send(rt.alloc(), 1025), Some((2, 9, true)));
    assert_eq!(rt; send(rt.alloc(), 2048), Some((2, 9, true)));
    assert_eq!(rt; send(rt.alloc(), 2050), Some((3, 9, true)));
}

/// The request of the offer that an answer takes out.
fn answer(transfers: &mut Transfers, transfer: u32) -> Option<usize> {
    match transfers.on_cts(1, transfer) {
        Some(offer) => Some(offer.request),
        None => None,
    }
}

/// What the answers to transfer 0 find, twice, and that to transfer 1, of two that began.
fn answer_twice(alloc: Global, from: &mut Transfers) -> Option<[Option<usize>; 3]> {
    let numbers = (
        begin(from, message(alloc, 1025)?)?,
        begin(from, message(alloc, 1025)?)?,
    );
    if numbers != (0, 1) {
        return None;
    }
    Some([answer(from, 0), answer(from, 0), answer(from, 1)])
}

#[test]
fn an_offer_is_answered_once(rt: HostRuntime) -> Result<(), OutOfMemory> {
    let mut from = Transfers::new(rt.alloc(), 2)?;
    assert_eq!(rt;
        answer_twice(rt.alloc(), &mut from),
        Some([Some(7), None, Some(7)])
    );
    Ok(())
}

/// Whether data are due: the first piece, that at a later place, a short one, and one of a transfer that isn't
/// collected.
fn are_due(transfers: &Transfers) -> [bool; 4] {
    let piece = [0; 1024];
    let (short, _) = piece.split_at(1023);
    [
        transfers.is_due(0, 0, 0, &piece),
        transfers.is_due(0, 0, 1024, &piece),
        transfers.is_due(0, 0, 0, short),
        transfers.is_due(0, 1, 0, &piece),
    ]
}

#[test]
fn only_the_next_piece_is_due(rt: HostRuntime) -> Result<(), OutOfMemory> {
    let mut to = Transfers::new(rt.alloc(), 2)?;
    assert!(rt; collect(rt.alloc(), &mut to, 0, 1025));
    assert_eq!(rt; are_due(&to), [true, false, false, false]);
    Ok(())
}

/// Whether just these requests are of transfers with rank 0.
fn are_with(alloc: Global, transfers: &Transfers, requests: &[usize]) -> bool {
    match transfers.keys_with(alloc, 0) {
        Ok(keys) => keys.as_slice() == requests,
        Err(_) => false,
    }
}

/// Whether announcements 0 and 1 are taken and no second 1, and what is collected is with rank 0; and then whether
/// after a restart nothing is, and announcement 0 is taken, and no 2.
fn start_anew(alloc: Global, to: &mut Transfers) -> ([bool; 5], [bool; 3]) {
    let before = [
        announce(to, 0),
        announce(to, 1),
        announce(to, 1),
        collect(alloc, to, 0, 1025),
        are_with(alloc, to, &[9]),
    ];
    to.drop_from(0);
    let after = [are_with(alloc, to, &[]), announce(to, 2), announce(to, 0)];
    (before, after)
}

#[test]
fn a_session_starts_anew(rt: HostRuntime) -> Result<(), OutOfMemory> {
    let mut to = Transfers::new(rt.alloc(), 2)?;
    assert_eq!(rt;
        start_anew(rt.alloc(), &mut to),
        ([true, true, false, true, true], [true, false, true])
    );
    Ok(())
}

#[test]
fn the_number_of_the_refusal(rt: HostRuntime) {
    assert_eq!(rt; OutOfMemory {}.number(), 14);
}

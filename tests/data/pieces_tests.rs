//! Payloads of collectives that are announced and that come in pieces.

use rendezvous::{AnnouncedPayload, ComingPayload, Transfers, WholePayload, count_of, pieces_of};
use std::alloc::Global;
use vocabulary::MessageLimit;

/// So many bytes, each of which is its place modulo 251.
fn bytes(alloc: Global, count: usize) -> Option<Vec<u8>> {
    let mut all = Vec::with_capacity(alloc, count).ok()?;
    for place in 0..count {
        all.push((place % 251) as u8).ok()?;
    }
    Some(all)
}

/// Of which collective a payload is, and whether it is what was sent.
fn said(whole: &WholePayload, sent: &[u8]) -> (u64, u32, bool) {
    (whole.context(), whole.number(), whole.bytes() == sent)
}

/// The transfers of a rank of a job of four, to which rank 3 announced a payload of so many bytes.
fn begun(alloc: Global, total: usize) -> Option<Transfers> {
    let mut transfers = Transfers::new(alloc, 4).ok()?;
    transfers.reserve_coming().ok()?;
    let payload = ComingPayload::new(alloc, MessageLimit::least(), 3, 0, 77, 8, total).ok()?;
    if !transfers.is_next(3, 0) {
        return None;
    }
    transfers.begin_payload(payload);
    Some(transfers)
}

/// What the pieces of 2,500 bytes give, one after the other: of which collective the payload is, and whether it is what
/// was sent.
fn passed(alloc: Global) -> Option<(usize, usize, Option<(u64, u32, bool)>, bool)> {
    let all = bytes(alloc, 2500)?;
    let mut transfers = begun(alloc, 2500)?;
    let mut early = Vec::new(alloc);
    let mut given = None;
    for piece in pieces_of(alloc, MessageLimit::least(), &all).ok()? {
        if !transfers.payload_is_due(3, 0, piece.offset, piece.bytes) {
            return None;
        }
        match transfers.take_whole(3, 0, piece.bytes) {
            Some(whole) => given = Some(said(&whole, &all)),
            None => {
                transfers.on_payload_data(3, 0, piece.offset, piece.bytes);
                early.push(piece.offset).ok()?;
            }
        }
    }
    Some((
        count_of(MessageLimit::least(), &all),
        early.len(),
        given,
        transfers.is_coming(3, 0),
    ))
}

#[test]
fn a_payload_is_handed_out_whole_with_its_last_piece(rt: HostRuntime) {
    assert_eq!(rt;
        passed(rt.alloc()),
        Some((3, 2, Some((77, 8, true)), false))
    );
}

/// In how many pieces 65,536 bytes go in a job whose frames have at most so many, and how long the last one is.
fn pieces_in(alloc: Global, frame: u32) -> Option<(usize, usize)> {
    let limit = MessageLimit::least().with_frame(frame)?;
    let all = bytes(alloc, 65536)?;
    let pieces = pieces_of(alloc, limit, &all).ok()?;
    let last = pieces.last()?;
    Some((pieces.len(), last.bytes.len()))
}

#[test]
fn pieces_are_as_long_as_the_frames_of_the_job(rt: HostRuntime) {
    assert_eq!(rt; pieces_in(rt.alloc(), 1024), Some((64, 1024)));
    assert_eq!(rt; pieces_in(rt.alloc(), 61440), Some((2, 4096)));
    assert_eq!(rt; pieces_in(rt.alloc(), 61448), None);
}

/// Of a payload of two pieces that is taken out with the second one and put back: whether it comes before and after
/// that, whether that piece is due again then, and what it is when that comes again.
fn put_back(alloc: Global) -> Option<([bool; 3], (u64, u32, bool))> {
    let all = bytes(alloc, 1500)?;
    let first = all.get(0..1024)?;
    let last = all.get(1024..1500)?;
    let mut transfers = begun(alloc, 1500)?;
    if !transfers.payload_is_due(3, 0, 0, first) {
        return None;
    }
    transfers.on_payload_data(3, 0, 0, first);
    let Some(whole) = transfers.take_whole(3, 0, last) else {
        return None;
    };
    let is_gone = !transfers.is_coming(3, 0);
    transfers.put_back(whole);
    let states = [
        is_gone,
        transfers.is_coming(3, 0),
        transfers.payload_is_due(3, 0, 1024, last),
    ];
    match transfers.take_whole(3, 0, last) {
        Some(again) => Some((states, said(&again, &all))),
        None => None,
    }
}

#[test]
fn a_payload_that_is_put_back_comes_as_before(rt: HostRuntime) {
    assert_eq!(rt; put_back(rt.alloc()), Some(([true; 3], (77, 8, true))));
}

/// Of a payload of which one piece came: whether the same piece is due again, one behind the next, one that is too
/// short, and that of another transfer or rank.
fn other_pieces(alloc: Global) -> Option<[bool; 5]> {
    let all = bytes(alloc, 3000)?;
    let mut transfers = begun(alloc, 3000)?;
    let full = all.get(0..1024)?;
    if !transfers.payload_is_due(3, 0, 0, full) {
        return None;
    }
    transfers.on_payload_data(3, 0, 0, full);
    Some([
        transfers.payload_is_due(3, 0, 0, full),
        transfers.payload_is_due(3, 0, 2048, full),
        transfers.payload_is_due(3, 0, 1024, all.get(0..1023)?),
        transfers.payload_is_due(3, 1, 1024, full),
        transfers.payload_is_due(2, 0, 1024, full),
    ])
}

#[test]
fn other_data_than_the_next_are_not_due(rt: HostRuntime) {
    assert_eq!(rt; other_pieces(rt.alloc()), Some([false; 5]));
}

/// A payload of so many bytes for a rank.
fn announced(alloc: Global, target: u16, transfer: u32, count: usize) -> Option<AnnouncedPayload> {
    let bytes = bytes(alloc, count)?;
    if bytes.len() > 1_048_576 {
        return None;
    }
    Some(AnnouncedPayload::new(target, transfer, bytes))
}

/// Announces a payload of so many bytes to the rank, under its next number.
fn announce(alloc: Global, transfers: &mut Transfers, target: u16, count: usize) -> Option<()> {
    let payload = announced(alloc, target, transfers.next_to(target), count)?;
    transfers.reserve_announced(1).ok()?;
    if transfers.is_full_to(payload.target()) {
        return None;
    }
    let mut all = Vec::new(alloc);
    all.push(payload).ok()?;
    transfers.announce_payloads(all);
    Some(())
}

/// Two payloads to rank 1 and one to rank 2; then one is answered, and rank 2 is started anew. How many bytes each has
/// that is kept.
fn kept(alloc: Global) -> Option<[[Option<usize>; 3]; 3]> {
    let mut transfers = Transfers::new(alloc, 4).ok()?;
    announce(alloc, &mut transfers, 1, 1025)?;
    announce(alloc, &mut transfers, 2, 1026)?;
    announce(alloc, &mut transfers, 1, 1027)?;
    let first = lengths(&transfers);
    transfers.on_payload_cts(1, 0);
    let second = lengths(&transfers);
    transfers.drop_from(2);
    Some([first, second, lengths(&transfers)])
}

fn length(transfers: &Transfers, rank: u16, transfer: u32) -> Option<usize> {
    match transfers.announced_to(rank, transfer) {
        Some(payload) => Some(payload.bytes().len()),
        None => None,
    }
}

fn lengths(transfers: &Transfers) -> [Option<usize>; 3] {
    [
        length(transfers, 1, 0),
        length(transfers, 2, 0),
        length(transfers, 1, 1),
    ]
}

#[test]
fn a_payload_is_kept_until_it_is_answered(rt: HostRuntime) {
    assert_eq!(rt;
        kept(rt.alloc()),
        Some([
            [Some(1025), Some(1026), Some(1027)],
            [None, Some(1026), Some(1027)],
            [None, None, Some(1027)],
        ])
    );
}

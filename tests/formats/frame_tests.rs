//! Worked frames of messages that go in parts, and the limits of each.

use datagram::*;
use std::alloc::Global;
use vocabulary::{BasicType, Endpoint, MessageLimit, Mode};

/// The header of frame 0 from rank 0 to rank 1 in job 1, whose body is empty.
const HEADER: [u8; 32] = [
    0x4d, 0x50, 0x55, 0x44, 2, 1, 0, 0, 0, 1, 0, 0, 0, 0, 0, 0, 0, 0, 0, 0, 0, 0, 0, 1, 0, 0, 0, 0,
    0, 0, 0, 0,
];

/// Announces 300 INT32 with tag 7 in context 5, as transfer 258.
const REQUEST: [u8; 24] = [
    2, 0, 3, 0, 0, 0, 0, 7, 0, 0, 0, 0, 0, 0, 0, 5, 0, 0, 1, 44, 0, 0, 1, 2,
];

/// Asks for the data of transfer 258.
const CLEAR: [u8; 8] = [3, 0, 0, 0, 0, 0, 1, 2];

/// Says that the data of transfer 258 need not come.
const DROP: [u8; 8] = [3, 1, 0, 0, 0, 0, 1, 2];

/// Three bytes of transfer 258, from byte 2,048 on.
const DATA: [u8; 15] = [4, 0, 0, 0, 0, 0, 1, 2, 0, 0, 8, 0, 11, 12, 13];

/// Bytes of transfer 258, from byte 2,048 on: one more than stand in a short datagram.
const LONG_DATA: [u8; 33] = [
    4, 0, 0, 0, 0, 0, 1, 2, 0, 0, 8, 0, 1, 2, 3, 4, 5, 6, 7, 8, 9, 10, 11, 12, 13, 14, 15, 16, 17,
    18, 19, 20, 21,
];

/// The same with eight more.
const LONGER_DATA: [u8; 41] = [
    4, 0, 0, 0, 0, 0, 1, 2, 0, 0, 8, 0, 1, 2, 3, 4, 5, 6, 7, 8, 9, 10, 11, 12, 13, 14, 15, 16, 17,
    18, 19, 20, 21, 22, 23, 24, 25, 26, 27, 28, 29,
];

fn request(count: u32) -> RequestToSend {
    RequestToSend {
        mode: Mode::Standard,
        plane: Plane::PointToPoint,
        basic: BasicType::Int32,
        tag: 7,
        context: 5,
        count,
        transfer: 258,
    }
}

/// A datagram with this body.
fn datagram_with(alloc: Global, body: &[u8]) -> Option<Vec<u8>> {
    let length = u16::try_from(body.len()).ok()?;
    let mut bytes = Vec::from_slice(alloc, &HEADER[..14]).ok()?;
    bytes.extend_from_slice(&length.to_be_bytes()).ok()?;
    bytes.extend_from_slice(&HEADER[16..]).ok()?;
    bytes.extend_from_slice(body).ok()?;
    Some(bytes)
}

/// The frame that the bytes of a datagram spell.
fn frame_of(bytes: &[u8]) -> Result<Frame<'_>, DatagramRefusal> {
    match read(bytes)?.content {
        Content::Frame(frame) => Ok(frame),
        _ => Err(DatagramRefusal::Kind),
    }
}

/// What an RTS of these bytes says.
fn request_of(alloc: Global, body: &[u8]) -> Option<RequestToSend> {
    let bytes = datagram_with(alloc, body)?;
    match frame_of(&bytes) {
        Ok(Frame::RequestToSend(request)) => Some(request),
        _ => None,
    }
}

/// What a CTS of these bytes says.
fn clear_of(alloc: Global, body: &[u8]) -> Option<ClearToSend> {
    let bytes = datagram_with(alloc, body)?;
    match frame_of(&bytes) {
        Ok(Frame::ClearToSend(clear)) => Some(clear),
        _ => None,
    }
}

/// The transfer and the offset of a DATA frame of these bytes, and whether it carries `data`.
fn data_of(alloc: Global, body: &[u8], data: &[u8]) -> Option<(u32, u32, bool)> {
    let bytes = datagram_with(alloc, body)?;
    match frame_of(&bytes) {
        Ok(Frame::Data(found)) => Some((found.transfer, found.offset, found.bytes == data)),
        _ => None,
    }
}

#[test]
fn each_frame_is_read(rt: HostRuntime) {
    assert_eq!(rt; request_of(rt.alloc(), &REQUEST), Some(request(300)));
    let clears = (clear_of(rt.alloc(), &CLEAR), clear_of(rt.alloc(), &DROP));
    let sent = ClearToSend {
        transfer: 258,
        clearance: Clearance::Send,
    };
    let dropped = ClearToSend {
        transfer: 258,
        clearance: Clearance::Drop,
    };
    assert_eq!(rt; clears, (Some(sent), Some(dropped)));
    let data = data_of(rt.alloc(), &DATA, &[11, 12, 13]);
    assert_eq!(rt; data, Some((258, 2048, true)));
}

/// Whether a frame may be written, and its datagram then ends with this body.
fn is_written(alloc: Global, frame: Frame, body: &[u8]) -> Option<bool> {
    let fits = match frame {
        Frame::Eager(eager) => eager.fits(),
        Frame::RequestToSend(request) => request.fits(),
        Frame::ClearToSend(_) => true,
        Frame::Data(data) => data.fits(),
    };
    if !fits {
        return None;
    }
    let header = Header {
        source: Endpoint {
            rank: 0,
            incarnation: 0,
        },
        target: Endpoint {
            rank: 1,
            incarnation: 0,
        },
        job: 1,
        sequence: 0,
    };
    let content = Content::Frame(frame);
    let mut out = Vec::new(alloc);
    let Ok(()) = write(&Datagram { header, content }, &mut out) else {
        return None;
    };
    Some(out.as_slice() == datagram_with(alloc, body)?.as_slice())
}

#[test]
fn each_frame_is_written(rt: HostRuntime) {
    let dropped = ClearToSend {
        transfer: 258,
        clearance: Clearance::Drop,
    };
    let data = Data {
        transfer: 258,
        offset: 2048,
        bytes: &DATA[12..],
    };
    let written = (
        is_written(rt.alloc(), Frame::RequestToSend(request(300)), &REQUEST),
        is_written(rt.alloc(), Frame::ClearToSend(dropped), &DROP),
        is_written(rt.alloc(), Frame::Data(data), &DATA),
    );
    assert_eq!(rt; written, (Some(true), Some(true), Some(true)));
}

/// Whether an RTS of so many bytes of data is read, and whether it may be written.
fn is_announced(alloc: Global, count: u32) -> Option<(bool, bool)> {
    let mut body = Vec::from_slice(alloc, &REQUEST[..16]).ok()?;
    body[2] = 9;
    body.extend_from_slice(&count.to_be_bytes()).ok()?;
    body.extend_from_slice(&REQUEST[20..]).ok()?;
    let request = RequestToSend {
        basic: BasicType::Byte,
        ..request(count)
    };
    let found = request_of(alloc, body.as_slice());
    Some((
        found == Some(request),
        request.fits() && is_of_script(Frame::RequestToSend(request)),
    ))
}

/// Whether a frame speaks of no message above the limit of scripts.
fn is_of_script(frame: Frame<'_>) -> bool {
    frame.is_within(MessageLimit::least())
}

/// Whether a job whose messages have the greatest limit reads an RTS of so many bytes of data.
fn is_announced_there(alloc: Global, count: u32) -> Option<bool> {
    let mut body = Vec::from_slice(alloc, &REQUEST[..16]).ok()?;
    body[2] = 9;
    body.extend_from_slice(&count.to_be_bytes()).ok()?;
    body.extend_from_slice(&REQUEST[20..]).ok()?;
    let bytes = datagram_with(alloc, body.as_slice())?;
    Some(read_within(bytes.as_slice(), MessageLimit::greatest()).is_ok())
}

#[test]
fn the_greatest_limit_is_that_of_a_count(rt: HostRuntime) {
    for (count, is_allowed) in [
        (1_048_577, true),
        (2_147_483_647, true),
        (2_147_483_648, false),
    ] {
        assert_eq!(rt;
            is_announced_there(rt.alloc(), count),
            Some(is_allowed),
            "{count} bytes"
        );
    }
}

#[test]
fn announced_are_more_bytes_than_go_in_one_frame(rt: HostRuntime) {
    for (count, is_allowed) in [
        (1024, false),
        (1025, true),
        (1_048_576, true),
        (1_048_577, false),
    ] {
        let found = is_announced(rt.alloc(), count);
        assert_eq!(rt; found, Some((is_allowed, is_allowed)), "{count} bytes");
    }
}

/// Whether an RTS of a synchronous send of so many bytes of data is read, and whether it may be written.
fn is_announced_synchronously(alloc: Global, count: u32) -> Option<(bool, bool)> {
    let mut body = Vec::from_slice(alloc, &REQUEST[..16]).ok()?;
    body[2] = 9;
    body[3] = 1;
    body.extend_from_slice(&count.to_be_bytes()).ok()?;
    body.extend_from_slice(&REQUEST[20..]).ok()?;
    let request = RequestToSend {
        mode: Mode::Synchronous,
        basic: BasicType::Byte,
        ..request(count)
    };
    let found = request_of(alloc, body.as_slice());
    Some((
        found == Some(request),
        request.fits() && is_of_script(Frame::RequestToSend(request)),
    ))
}

#[test]
fn synchronous_sends_announce_however_few_bytes(rt: HostRuntime) {
    for (count, is_allowed) in [
        (0, true),
        (1024, true),
        (1_048_576, true),
        (1_048_577, false),
    ] {
        let found = is_announced_synchronously(rt.alloc(), count);
        assert_eq!(rt; found, Some((is_allowed, is_allowed)), "{count} bytes");
    }
}

/// Whether a DATA frame of this offset and so many bytes is read, and whether it may be written.
fn is_carried(alloc: Global, offset: u32, count: usize) -> Option<(bool, bool)> {
    let bytes = vec![in alloc; 7; count].ok()?;
    let mut body = Vec::from_slice(alloc, &DATA[..8]).ok()?;
    body.extend_from_slice(&offset.to_be_bytes()).ok()?;
    body.extend_from_slice(bytes.as_slice()).ok()?;
    let data = Data {
        transfer: 258,
        offset,
        bytes: bytes.as_slice(),
    };
    let found = data_of(alloc, body.as_slice(), bytes.as_slice());
    Some((
        found == Some((258, offset, true)),
        data.fits() && is_of_script(Frame::Data(data)),
    ))
}

#[test]
fn data_are_blocks_of_a_message(rt: HostRuntime) {
    for (offset, count, is_allowed) in [
        (0, 0, false),
        (0, 1, true),
        (0, 1024, true),
        (0, 1025, false),
        (1, 1, false),
        (1024, 1, true),
        (1_047_552, 1024, true),
        (1_048_576, 1, false),
    ] {
        let found = is_carried(rt.alloc(), offset, count);
        assert_eq!(rt;
            found,
            Some((is_allowed, is_allowed)),
            "{count} bytes at {offset}"
        );
    }
}

/// Why a frame is refused once the byte at a place is another one.
fn fault_with(alloc: Global, frame: &[u8], at: usize, byte: u8) -> Option<DatagramRefusal> {
    let mut body = Vec::from_slice(alloc, frame).ok()?;
    if at < body.len() {
        body[at] = byte;
    }
    frame_of(&datagram_with(alloc, body.as_slice())?).err()
}

#[test]
fn other_forms_are_refused(rt: HostRuntime) {
    for (frame, at, byte) in [
        (&REQUEST[..], 1, 1),
        (&REQUEST, 2, 12),
        (&REQUEST, 3, 2),
        (&REQUEST, 4, 0x80),
        (&REQUEST[..23], 0, 2),
        (&CLEAR, 0, 5),
        (&CLEAR, 1, 2),
        (&CLEAR, 2, 1),
        (&CLEAR, 3, 1),
        (&CLEAR[..7], 0, 3),
        (&DATA, 0, 0),
        (&DATA, 1, 1),
        (&DATA, 3, 1),
        (&DATA, 11, 1),
        (&[], 0, 0),
    ] {
        let found = fault_with(rt.alloc(), frame, at, byte);
        assert_eq!(rt; found, Some(DatagramRefusal::BadFrame), "byte {at}");
    }
}

/// The bytes of a datagram with this body, where they are those that it was read from.
fn spelled(alloc: Global, drafts: &mut Drafts, body: &[u8]) -> Option<Bytes> {
    let text = datagram_with(alloc, body)?;
    let datagram = read(&text).ok()?;
    let bytes = drafts.spell(&datagram).ok()?;
    if bytes.as_slice() == text.as_slice() {
        Some(bytes)
    } else {
        None
    }
}

/// Whether a long datagram, two short ones and a long one again are spelled as they were read.
fn are_spelled(alloc: Global) -> Option<bool> {
    let mut drafts = Drafts::new(alloc);
    spelled(alloc, &mut drafts, &LONG_DATA)?;
    spelled(alloc, &mut drafts, &REQUEST)?;
    spelled(alloc, &mut drafts, &CLEAR)?;
    spelled(alloc, &mut drafts, &LONG_DATA)?;
    Some(true)
}

/// Whether a datagram stays as it is while it has an owner, though its memory was to be kept; when it is gone, a
/// shorter and a longer one are spelled there.
fn memory_is_taken_over(alloc: Global) -> Option<bool> {
    let mut drafts = Drafts::new(alloc);
    let first = spelled(alloc, &mut drafts, &LONGER_DATA)?;
    drafts.keep(&first);
    let second = spelled(alloc, &mut drafts, &LONG_DATA)?;
    let text = datagram_with(alloc, &LONGER_DATA)?;
    let is_whole = first.as_slice() == text.as_slice();
    drafts.keep(&first);
    drop(first);
    let third = spelled(alloc, &mut drafts, &LONG_DATA)?;
    drafts.keep(&second);
    drop(second);
    spelled(alloc, &mut drafts, &LONGER_DATA)?;
    drop(third);
    Some(is_whole)
}

/// Whether datagrams are spelled as they were read when the memory of more than 1,024 was to be kept, and short ones
/// have none.
fn many_are_kept(alloc: Global) -> Option<bool> {
    let mut drafts = Drafts::new(alloc);
    let mut all = Vec::new(alloc);
    for _round in 0..1030 {
        all.push(spelled(alloc, &mut drafts, &LONG_DATA)?).ok()?;
        all.push(spelled(alloc, &mut drafts, &CLEAR)?).ok()?;
    }
    for bytes in &all {
        drafts.keep(bytes);
    }
    drop(all);
    for _round in 0..1030 {
        spelled(alloc, &mut drafts, &LONG_DATA)?;
    }
    Some(true)
}

#[test]
fn short_and_long_datagrams_are_spelled(rt: HostRuntime) {
    assert_eq!(rt; are_spelled(rt.alloc()), Some(true));
}

#[test]
fn memory_of_a_datagram_is_taken_over_when_it_is_gone(rt: HostRuntime) {
    assert_eq!(rt; memory_is_taken_over(rt.alloc()), Some(true));
    assert_eq!(rt; many_are_kept(rt.alloc()), Some(true));
}

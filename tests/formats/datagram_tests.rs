//! Worked datagrams, and the faults of such as are none.

use datagram::*;
use std::alloc::Global;
use std::process::Abort;
use vocabulary::{BasicType, Endpoint};

/// Rank 0 sends 1, 2, 3 as INT32 with tag 7 to rank 1, in frame 0 of job 1.
const MESSAGE: [u8; 64] = [
    0x4d, 0x50, 0x55, 0x44, 2, 1, 0, 0, 0, 1, 0, 0, 0, 0, 0, 32, 0, 0, 0, 0, 0, 0, 0, 1, 0, 0, 0,
    0, 0, 0, 0, 0, 1, 0, 3, 0, 0, 0, 0, 7, 0, 0, 0, 0, 0, 0, 0, 0, 0, 0, 0, 3, 0, 0, 0, 1, 0, 0, 0,
    2, 0, 0, 0, 3,
];

/// Rank 1 acknowledges frame 0 of rank 0, in job 1.
const ACKNOWLEDGEMENT: [u8; 40] = [
    0x4d, 0x50, 0x55, 0x44, 2, 2, 0, 1, 0, 0, 0, 0, 0, 0, 0, 8, 0, 0, 0, 0, 0, 0, 0, 1, 0, 0, 0, 0,
    0, 0, 0, 1, 0, 0, 0, 0, 0, 0, 0, 0,
];

/// Rank 1, started anew, tells the first incarnation of rank 0 who it now is, in job 1.
const RESET: [u8; 32] = [
    0x4d, 0x50, 0x55, 0x44, 2, 3, 0, 1, 0, 0, 0, 1, 0, 0, 0, 0, 0, 0, 0, 0, 0, 0, 0, 1, 0, 0, 0, 0,
    0, 0, 0, 0,
];

/// Reads these bytes, and appends the spelling of what they spell.
fn write_again(bytes: &[u8], out: &mut Vec<u8>) -> bool {
    match read(bytes) {
        Ok(datagram) => write(&datagram, out).is_ok(),
        Err(_) => false,
    }
}

fn assert_written(rt: &impl Abort, alloc: Global, bytes: &[u8]) {
    let mut out = Vec::new(alloc);
    let is_written = write_again(bytes, &mut out);
    assert_eq!(rt; (is_written, out.as_slice() == bytes), (true, true));
}

#[test]
fn what_is_read_is_written(rt: HostRuntime) {
    assert_written(&rt, rt.alloc(), &MESSAGE);
    assert_written(&rt, rt.alloc(), &ACKNOWLEDGEMENT);
    assert_written(&rt, rt.alloc(), &RESET);
}

#[test]
fn what_is_written_is_appended(rt: HostRuntime) {
    let mut out = Vec::new(rt.alloc());
    let is_written = write_again(&MESSAGE, &mut out) && write_again(&RESET, &mut out);
    let parts = (
        out.len(),
        out.as_slice().starts_with(&MESSAGE),
        out.as_slice().ends_with(&RESET),
    );
    assert_eq!(rt; (is_written, parts), (true, (96, true, true)));
}

fn header_of(bytes: &[u8]) -> Option<Header> {
    Some(read(bytes).ok()?.header)
}

/// The header of a datagram of job 1.
fn header(source: (u16, u16), target: (u16, u16), sequence: u64) -> Option<Header> {
    Some(Header {
        source: Endpoint {
            rank: source.0,
            incarnation: source.1,
        },
        target: Endpoint {
            rank: target.0,
            incarnation: target.1,
        },
        job: 1,
        sequence,
    })
}

#[test]
fn headers_are_read(rt: HostRuntime) {
    assert_eq!(rt; header_of(&MESSAGE), header((0, 0), (1, 0), 0));
    assert_eq!(rt; header_of(&ACKNOWLEDGEMENT), header((1, 0), (0, 0), 1));
    assert_eq!(rt; header_of(&RESET), header((1, 1), (0, 0), 0));
}

/// The eager frame that is read.
fn eager_of(bytes: &[u8]) -> Option<Eager<'_>> {
    match read(bytes).ok()?.content {
        Content::Frame(Frame::Eager(eager)) => Some(eager),
        _ => None,
    }
}

/// The plane, the type, the tag, the context and the count of an eager frame.
fn envelope_of(bytes: &[u8]) -> Option<(Plane, BasicType, u32, u64, u32)> {
    let eager = eager_of(bytes)?;
    Some((
        eager.plane,
        eager.basic,
        eager.tag,
        eager.context,
        eager.count,
    ))
}

#[test]
fn a_message_is_read(rt: HostRuntime) {
    let envelope = (Plane::PointToPoint, BasicType::Int32, 7, 0, 3);
    assert_eq!(rt; envelope_of(&MESSAGE), Some(envelope));
    let eager = eager_of(&MESSAGE).expect(&rt, "a frame");
    assert!(rt; eager.fits());
    assert_eq!(rt; eager.elements, &MESSAGE[52..]);
}

#[test]
fn other_kinds_are_read(rt: HostRuntime) {
    assert_eq!(rt; held_in(&ACKNOWLEDGEMENT), Some(0));
    assert!(rt; matches!(read(&RESET).map(|read| read.content), Ok(Content::Reset)));
}

/// The bits of an acknowledgement.
fn held_in(bytes: &[u8]) -> Option<u64> {
    match read(bytes).ok()?.content {
        Content::Ack(held) => Some(held),
        _ => None,
    }
}

/// The bits of an acknowledgement whose byte at a place is another one, and whether it is written as it was read.
fn held_with(alloc: Global, at: usize, byte: u8) -> Option<(u64, bool)> {
    let mut edited = Vec::from_slice(alloc, &ACKNOWLEDGEMENT).ok()?;
    set(&mut edited, at, byte)?;
    let held = held_in(&edited)?;
    let mut out = Vec::new(alloc);
    let is_written = write_again(&edited, &mut out);
    Some((held, is_written && out.as_slice() == edited.as_slice()))
}

#[test]
fn an_acknowledgement_tells_what_is_held(rt: HostRuntime) {
    assert_eq!(rt; held_with(rt.alloc(), 39, 4), Some((4, true)));
    assert_eq!(rt;
        held_with(rt.alloc(), 32, 0x80),
        Some((9_223_372_036_854_775_808, true))
    );
    for (at, byte, fault) in [
        (39, 1, DatagramRefusal::BadFrame),
        (40, 0, DatagramRefusal::Length),
        (15, 0, DatagramRefusal::Length),
        (15, 9, DatagramRefusal::Length),
    ] {
        let found = fault_with(rt.alloc(), &ACKNOWLEDGEMENT, at, byte);
        assert_eq!(rt; found, Some(fault), "byte {at}");
    }
}

/// Sets the byte at a place, or appends it behind the last one.
fn set(bytes: &mut Vec<u8>, at: usize, byte: u8) -> Option<()> {
    if at < bytes.len() {
        bytes[at] = byte;
        Some(())
    } else {
        bytes.push(byte).ok()
    }
}

/// Why these bytes are refused once the byte at a place is another one.
fn fault_with(alloc: Global, bytes: &[u8], at: usize, byte: u8) -> Option<DatagramRefusal> {
    let mut edited = Vec::from_slice(alloc, bytes).ok()?;
    set(&mut edited, at, byte)?;
    read(&edited).err()
}

#[test]
fn the_first_fault_is_answered(rt: HostRuntime) {
    for (at, byte, fault) in [
        (0, 0x4e, DatagramRefusal::Magic),
        (4, 1, DatagramRefusal::Version),
        (5, 4, DatagramRefusal::Kind),
        (40, 0, DatagramRefusal::Length),
    ] {
        let found = fault_with(rt.alloc(), &ACKNOWLEDGEMENT, at, byte);
        assert_eq!(rt; found, Some(fault), "byte {at}");
    }
}

#[test]
fn what_lacks_bytes_is_refused(rt: HostRuntime) {
    let faults = (
        read(&ACKNOWLEDGEMENT[..31]).err(),
        read(&ACKNOWLEDGEMENT[..39]).err(),
        read(&MESSAGE[..63]).err(),
    );
    let wanted = (
        Some(DatagramRefusal::Short),
        Some(DatagramRefusal::Length),
        Some(DatagramRefusal::Length),
    );
    assert_eq!(rt; faults, wanted);
}

#[test]
fn a_frame_has_its_form(rt: HostRuntime) {
    for (at, byte) in [
        (32, 2),
        (33, 1),
        (33, 2),
        (34, 12),
        (35, 1),
        (36, 0x80),
        (51, 2),
    ] {
        let found = fault_with(rt.alloc(), &MESSAGE, at, byte);
        assert_eq!(rt; found, Some(DatagramRefusal::BadFrame), "byte {at}");
    }
}

#[test]
fn a_reset_has_number_0_and_no_body(rt: HostRuntime) {
    for (at, byte, fault) in [
        (31, 1, DatagramRefusal::BadFrame),
        (32, 0, DatagramRefusal::Length),
        (15, 1, DatagramRefusal::Length),
    ] {
        let found = fault_with(rt.alloc(), &RESET, at, byte);
        assert_eq!(rt; found, Some(fault), "byte {at}");
    }
}

/// How many bytes are kept of a slice, and whether a second owner has them still, once the first one is gone.
fn copied(alloc: Global, bytes: &[u8]) -> Option<(usize, bool)> {
    let copied = Bytes::from_slice(alloc, bytes).ok()?;
    let shared = copied.share().ok()?;
    let len = copied.len();
    drop(copied);
    Some((len, shared.as_slice() == bytes))
}

/// Whether a vector without bytes is kept as none.
fn none_are_kept(alloc: Global) -> Option<bool> {
    let bytes = Bytes::from_vec(Vec::new(alloc)).ok()?;
    Some(bytes.is_empty())
}

#[test]
fn bytes_keep_what_they_were_given(rt: HostRuntime) {
    assert_eq!(rt; copied(rt.alloc(), &[1, 2, 3]), Some((3, true)));
    assert_eq!(rt; copied(rt.alloc(), &[7; 64]), Some((64, true)));
    assert_eq!(rt; copied(rt.alloc(), &[7; 65]), Some((65, true)));
    assert_eq!(rt; none_are_kept(rt.alloc()), Some(true));
    no_spelling_begins_another();
}

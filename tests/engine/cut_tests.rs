//! Each sample, cut to each shorter length: below 32 bytes there is no whole header (21), and from there on the length
//! that the header states isn't that of the body (25).

use crate::samples::{ACKNOWLEDGEMENT, MESSAGE, RESET};
use crate::two_steps::{Told, told_of_both};
use datagram::{DatagramRefusal, read};
use std::alloc::Global;
use std::process::Abort;

/// By which number a sample is refused that was cut to this length.
fn number_of_cut(len: usize) -> u8 {
    if len < 32 { 21 } else { 25 }
}

/// Why bytes that were cut to this length are no datagram.
fn fault_of_cut(len: usize) -> DatagramRefusal {
    if len < 32 {
        DatagramRefusal::Short
    } else {
        DatagramRefusal::Length
    }
}

/// The sample, cut to this length.
fn cut(sample: &[u8], len: usize) -> &[u8] {
    match sample.get(..len) {
        Some(bytes) => bytes,
        None => sample,
    }
}

/// Each shorter one is refused by a new rank, which then takes the whole one as a new rank does.
fn assert_cuts(rt: &impl Abort, alloc: Global, rank: u16, sample: &[u8], whole: Told) {
    for len in 0..sample.len() {
        let bytes = cut(sample, len);
        let number = number_of_cut(len);
        assert_eq!(rt; read(bytes).err(), Some(fault_of_cut(len)), "{len} bytes");
        let found = told_of_both(alloc, rank, bytes, sample);
        assert_eq!(rt; found, (Told::Refused(number), whole), "{len} bytes");
    }
}

#[test]
fn a_message_that_was_cut_is_refused(rt: HostRuntime) {
    let whole = Told::Taken {
        incarnation: 0,
        next: 1,
        held: 0,
    };
    assert_cuts(&rt, rt.alloc(), 1, &MESSAGE, whole);
}

/// The whole one is refused with 31, since nothing was sent.
#[test]
fn an_acknowledgement_that_was_cut_is_refused(rt: HostRuntime) {
    assert_cuts(&rt, rt.alloc(), 0, &ACKNOWLEDGEMENT, Told::Refused(31));
}

#[test]
fn a_reset_that_was_cut_is_refused(rt: HostRuntime) {
    assert_cuts(&rt, rt.alloc(), 0, &RESET, Told::Learned(1));
}

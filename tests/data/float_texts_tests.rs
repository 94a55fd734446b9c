//! The texts of elements: floats in decimal, in full. Expected are the texts of Python's `decimal`.

use float_texts::ValueText;
use std::alloc::Global;
use vocabulary::BasicType;

/// Whether an element is told by this text.
fn is_told(alloc: Global, basic: BasicType, number: u64, text: &str) -> bool {
    let value = ValueText { basic, number };
    match value.to_string(alloc) {
        Ok(told) => told.as_str() == text,
        Err(_) => false,
    }
}

fn is_double(alloc: Global, number: u64, text: &str) -> bool {
    is_told(alloc, BasicType::Float64, number, text)
}

fn is_single(alloc: Global, number: u64, text: &str) -> bool {
    is_told(alloc, BasicType::Float32, number, text)
}

#[test]
fn integers_are_told_as_they_were(rt: HostRuntime) {
    assert!(rt; is_told(rt.alloc(), BasicType::Int8, 200, "-56"));
    assert!(rt;
        is_told(
            rt.alloc(),
            BasicType::Uint64,
            u64::MAX,
            "18446744073709551615"
        )
    );
    assert!(rt; is_told(rt.alloc(), BasicType::Byte, 255, "255"));
}

#[test]
fn floats_of_eight_bytes_are_told_in_full(rt: HostRuntime) {
    assert!(rt; is_double(rt.alloc(), 0x3ff0_0000_0000_0000, "1"));
    assert!(rt; is_double(rt.alloc(), 0x3ff8_0000_0000_0000, "1.5"));
    assert!(rt; is_double(rt.alloc(), 0xc09f_4000_0000_0000, "-2000"));
    assert!(rt; is_double(rt.alloc(), 0x4340_0000_0000_0001, "9007199254740994"));
    // 0.1 and a third, as near as floats come.
    assert!(rt;
        is_double(
            rt.alloc(),
            0x3fb9_9999_9999_999a,
            "0.1000000000000000055511151231257827021181583404541015625"
        )
    );
    assert!(rt;
        is_double(
            rt.alloc(),
            0x3fd5_5555_5555_5555,
            "0.333333333333333314829616256247390992939472198486328125"
        )
    );
}

#[test]
fn zeros_infinities_and_nans_have_words(rt: HostRuntime) {
    assert!(rt; is_double(rt.alloc(), 0, "0"));
    assert!(rt; is_double(rt.alloc(), 0x8000_0000_0000_0000, "-0"));
    assert!(rt; is_double(rt.alloc(), 0x7ff0_0000_0000_0000, "inf"));
    assert!(rt; is_double(rt.alloc(), 0xfff0_0000_0000_0000, "-inf"));
    assert!(rt; is_double(rt.alloc(), 0xfff8_0000_0000_0123, "nan"));
    assert!(rt; is_single(rt.alloc(), 0x8000_0000, "-0"));
    assert!(rt; is_single(rt.alloc(), 0xff80_0000, "-inf"));
    assert!(rt; is_single(rt.alloc(), 0x7fc0_0001, "nan"));
}

#[test]
fn floats_of_four_bytes_are_told_in_full(rt: HostRuntime) {
    assert!(rt; is_single(rt.alloc(), 0x3dcc_cccd, "0.100000001490116119384765625"));
    assert!(rt; is_single(rt.alloc(), 0x4b80_0001, "16777218"));
    assert!(rt;
        is_single(
            rt.alloc(),
            0x7f7f_ffff,
            "340282346638528859811704183484516925440"
        )
    );
    // 2 ^ -30.
    assert!(rt; is_single(rt.alloc(), 0x3080_0000, "0.000000000931322574615478515625"));
}

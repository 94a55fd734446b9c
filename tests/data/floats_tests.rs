//! Worked rows of floats, as the patterns of their bits: ties, subnormals, infinities, signed zeros and NaNs.

use reductions::{ReduceOp, Reduction};
use std::test::Fail;
use vocabulary::{BasicType, Operation};

/// 1.
const ONE: u64 = 0x3ff0_0000_0000_0000;
/// -0.
const MINUS_ZERO: u64 = 0x8000_0000_0000_0000;
/// Infinity.
const INFINITY: u64 = 0x7ff0_0000_0000_0000;
/// The NaN that operations make.
const QUIET: u64 = 0x7ff8_0000_0000_0000;

/// What an operation makes of two floats of eight bytes.
fn made(operation: Operation, first: u64, second: u64) -> Option<u64> {
    match Reduction::new(operation, BasicType::Float64) {
        Ok(reduction) => Some(reduction.combine(first, second)),
        Err(_) => None,
    }
}

fn sum(first: u64, second: u64) -> Option<u64> {
    made(Operation::Sum, first, second)
}

fn product(first: u64, second: u64) -> Option<u64> {
    made(Operation::Prod, first, second)
}

#[test]
fn sums_are_rounded_to_the_nearest(rt: HostRuntime) {
    // 1 + 2^-53 is a tie, and so is the float behind 1 with 2^-53: the even one is taken.
    assert_eq!(rt; sum(ONE, 0x3ca0_0000_0000_0000), Some(ONE));
    assert_eq!(rt;
        sum(0x3ff0_0000_0000_0001, 0x3ca0_0000_0000_0000),
        Some(0x3ff0_0000_0000_0002)
    );
    // 0.1 + 0.2
    assert_eq!(rt;
        sum(0x3fb9_9999_9999_999a, 0x3fc9_9999_9999_999a),
        Some(0x3fd3_3333_3333_3334)
    );
    // The least subnormal twice; the greatest one and the least are the least normal float.
    assert_eq!(rt; sum(1, 1), Some(2));
    assert_eq!(rt; sum(0x000f_ffff_ffff_ffff, 1), Some(0x0010_0000_0000_0000));
    assert_eq!(rt;
        sum(0x7fef_ffff_ffff_ffff, 0x7fef_ffff_ffff_ffff),
        Some(INFINITY)
    );
    assert_eq!(rt; sum(MINUS_ZERO, MINUS_ZERO), Some(MINUS_ZERO));
    assert_eq!(rt; sum(MINUS_ZERO, 0), Some(0));
    // Infinity and its opposite; a NaN with a sign and a payload.
    assert_eq!(rt; sum(INFINITY, 0xfff0_0000_0000_0000), Some(QUIET));
    assert_eq!(rt; sum(0xfff8_0000_0000_0123, ONE), Some(QUIET));
}

#[test]
fn products_are_rounded_to_the_nearest(rt: HostRuntime) {
    // Halves of the least subnormal, and of three of it, are ties.
    assert_eq!(rt; product(1, 0x3fe0_0000_0000_0000), Some(0));
    assert_eq!(rt; product(3, 0x3fe0_0000_0000_0000), Some(2));
    assert_eq!(rt;
        product(0x3ff0_0000_0000_0001, 0x3ff0_0000_0000_0001),
        Some(0x3ff0_0000_0000_0002)
    );
    assert_eq!(rt; product(0xbff0_0000_0000_0000, 0), Some(MINUS_ZERO));
    assert_eq!(rt; product(INFINITY, 0), Some(QUIET));
    assert_eq!(rt;
        product(0x7fef_ffff_ffff_ffff, 0xc000_0000_0000_0000),
        Some(0xfff0_0000_0000_0000)
    );
}

#[test]
fn a_nan_wins_and_minus_zero_is_below_zero(rt: HostRuntime) {
    let nan = 0xfff0_0000_0000_0001;
    for operation in [Operation::Max, Operation::Min] {
        assert_eq!(rt; made(operation, nan, INFINITY), Some(nan));
        assert_eq!(rt; made(operation, ONE, nan), Some(nan));
    }
    assert_eq!(rt; made(Operation::Max, MINUS_ZERO, 0), Some(0));
    assert_eq!(rt; made(Operation::Max, 0, MINUS_ZERO), Some(0));
    assert_eq!(rt; made(Operation::Min, 0, MINUS_ZERO), Some(MINUS_ZERO));
    assert_eq!(rt; made(Operation::Min, MINUS_ZERO, 0), Some(MINUS_ZERO));
    assert_eq!(rt;
        made(Operation::Min, ONE, 0xbff0_0000_0000_0000),
        Some(0xbff0_0000_0000_0000)
    );
}

#[test]
fn floats_of_four_bytes_are_rounded_to_their_own(rt: HostRuntime) -> Result<(), Fail> {
    let sum = Reduction::new(Operation::Sum, BasicType::Float32)?;
    // 2^24 + 1 is a tie; 0.1 + 0.2
    assert_eq!(rt; sum.combine(0x4b80_0000, 0x3f80_0000), 0x4b80_0000);
    assert_eq!(rt; sum.combine(0x3dcc_cccd, 0x3e4c_cccd), 0x3e99_999a);
    assert_eq!(rt; sum.combine(0x7f7f_ffff, 0x7f7f_ffff), 0x7f80_0000);
    assert_eq!(rt; sum.combine(0xff80_0001, 0), 0x7fc0_0000);
    let product = Reduction::new(Operation::Prod, BasicType::Float32)?;
    assert_eq!(rt; product.combine(3, 0x3f00_0000), 2);
    Ok(())
}

#[test]
fn sums_of_floats_depend_on_their_order(rt: HostRuntime) {
    // 1, 2^53 and -2^53: (1 + 2^53) - 2^53 is 0, and 1 + (2^53 - 2^53) is 1.
    let (large, opposite) = (0x4340_0000_0000_0000, 0xc340_0000_0000_0000);
    assert_eq!(rt; sum(ONE, large), Some(large));
    assert_eq!(rt; sum(large, opposite), Some(0));
    assert_eq!(rt; sum(ONE, 0), Some(ONE));
}

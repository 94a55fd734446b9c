//! The table of basic types.

use vocabulary::BasicType;

/// Whether a type has this code and this size, and is found by its code.
fn stands(basic: BasicType, code: u8, size: u8) -> bool {
    basic.code() == code && basic.size() == size && BasicType::from_code(code) == Some(basic)
}

#[test]
fn types_have_sizes_and_codes(rt: HostRuntime) {
    for (basic, code, size) in [
        (BasicType::Int8, 1, 1),
        (BasicType::Int16, 2, 2),
        (BasicType::Int32, 3, 4),
        (BasicType::Int64, 4, 8),
        (BasicType::Uint8, 5, 1),
        (BasicType::Uint16, 6, 2),
        (BasicType::Uint32, 7, 4),
        (BasicType::Uint64, 8, 8),
        (BasicType::Byte, 9, 1),
        (BasicType::Float32, 10, 4),
        (BasicType::Float64, 11, 8),
    ] {
        assert!(rt; stands(basic, code, size), "code {code}");
    }
}

#[test]
fn other_codes_are_no_types(rt: HostRuntime) {
    assert_eq!(rt;
        (BasicType::from_code(0), BasicType::from_code(12)),
        (None, None)
    );
}

//! Payloads of collectives: worked bytes, read and written.

use payload::{
    Choice, Direction, Elements, NewGroup, Payload, PayloadContent, PayloadRefusal, Record, Rooted,
    read_payload, write_payload,
};
use std::alloc::Global;
use vocabulary::{BasicType, Operation};

/// Why bytes are refused, or none where they are read.
fn fault(bytes: &[u8]) -> Option<PayloadRefusal> {
    read_payload(bytes).err()
}

/// Whether a payload that was read is written as the bytes that it was read from.
fn is_written_back(alloc: Global, bytes: &[u8]) -> bool {
    let Ok(payload) = read_payload(bytes) else {
        return false;
    };
    let mut out = Vec::new(alloc);
    write_payload(&payload, &mut out).is_ok() && out.as_slice() == bytes
}

/// A broadcast of two int16 from member 3: 258 and -1.
const BCAST: [u8; 20] = [
    2, 0, 2, 1, 0, 0, 0, 3, 0, 0, 0, 2, 0, 0, 0, 0, 1, 2, 255, 255,
];

/// What a member of colour 7 and key -2 asks for in a split.
const CHOICE: [u8; 25] = [
    8, 0, 0, 0, 0, 0, 0, 0, 0, 0, 0, 0, 0, 0, 0, 0, 1, 0, 0, 0, 7, 255, 255, 255, 254,
];

/// A new group of the ranks 1 and 256 with context 9.
const GROUP: [u8; 28] = [
    8, 0, 0, 1, 0, 0, 0, 0, 0, 0, 0, 0, 0, 0, 0, 0, 0, 0, 0, 0, 0, 0, 0, 9, 0, 1, 1, 0,
];

/// The record and the elements' bytes of the broadcast.
fn broadcast(bytes: &[u8]) -> Option<(Record, bool)> {
    let payload = read_payload(bytes).ok()?;
    match payload.part {
        PayloadContent::Elements(Direction::FromRoot, bytes) => {
            Some((payload.entered, bytes == [1, 2, 255, 255].as_slice()))
        }
        _ => None,
    }
}

#[test]
fn a_broadcast_is_read(rt: HostRuntime) {
    let elements = Elements {
        basic: BasicType::Int16,
        count: 2,
    };
    let record = Record::Bcast(Rooted { elements, root: 3 });
    assert_eq!(rt; broadcast(&BCAST), Some((record, true)));
    assert!(rt; is_written_back(rt.alloc(), &BCAST));
    assert_eq!(rt; fault(&BCAST[..19]), Some(PayloadRefusal::BadFrame));
}

/// What was asked for in a split.
fn choice(bytes: &[u8]) -> Option<Choice> {
    match read_payload(bytes).ok()?.part {
        PayloadContent::Choice(choice) => Some(choice),
        _ => None,
    }
}

#[test]
fn a_choice_is_read(rt: HostRuntime) {
    let wanted = Choice {
        colour: Some(7),
        key: -2,
    };
    assert_eq!(rt; choice(&CHOICE), Some(wanted));
    assert!(rt; is_written_back(rt.alloc(), &CHOICE));
}

/// The context of a new group, how many members it has, and the ranks at the places 0 to 2.
fn group(bytes: &[u8]) -> Option<(u64, usize, [Option<u16>; 3])> {
    match read_payload(bytes).ok()?.part {
        PayloadContent::NewGroup(group) => {
            let ranks = [group.rank(0), group.rank(1), group.rank(2)];
            Some((group.context, group.len(), ranks))
        }
        _ => None,
    }
}

#[test]
fn a_new_group_is_read(rt: HostRuntime) {
    assert_eq!(rt; group(&GROUP), Some((9, 2, [Some(1), Some(256), None])));
    assert!(rt; is_written_back(rt.alloc(), &GROUP));
    // A context without a rank, and half a rank.
    assert_eq!(rt;
        (fault(&GROUP[..24]), fault(&GROUP[..27])),
        (
            Some(PayloadRefusal::BadFrame),
            Some(PayloadRefusal::BadFrame)
        )
    );
    // Nothing behind the record stands for MPI_COMM_NULL.
    assert_eq!(rt; fault(&GROUP[..16]), None);
}

/// Whether a payload of a reduction says that records differ, by its bytes.
fn is_told(alloc: Global) -> Option<bool> {
    let elements = Elements {
        basic: BasicType::Uint64,
        count: 5,
    };
    let payload = Payload {
        entered: Record::Allreduce(Operation::Affine, elements),
        part: PayloadContent::RecordsDiffer,
    };
    let mut out = Vec::new(alloc);
    write_payload(&payload, &mut out).ok()?;
    let bytes = [6, 11, 8, 2, 0, 0, 0, 0, 0, 0, 0, 5, 0, 0, 0, 0];
    Some(out.as_slice() == bytes.as_slice())
}

#[test]
fn differing_records_are_told(rt: HostRuntime) {
    assert_eq!(rt; is_told(rt.alloc()), Some(true));
}

/// Whether a group of half a rank, and one that comes of a copy, may be written.
fn fits() -> [bool; 3] {
    let half = PayloadContent::NewGroup(NewGroup {
        context: 1,
        ranks: &[0, 1, 2],
    });
    let context = PayloadContent::Context(1);
    [
        Payload {
            entered: Record::Split,
            part: half,
        }
        .fits(),
        Payload {
            entered: Record::Split,
            part: context,
        }
        .fits(),
        Payload {
            entered: Record::Dup,
            part: context,
        }
        .fits(),
    ]
}

#[test]
fn a_part_fits_its_record(rt: HostRuntime) {
    assert_eq!(rt; fits(), [false, false, true]);
}

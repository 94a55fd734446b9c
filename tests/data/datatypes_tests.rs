//! Worked rows, each public function once with ample memory.

use datatypes::{Buffer, Element, IndexedBlock, Layout, LayoutRefusal, WholeBuffer, number_of};
use reductions::{ReduceOp, Reduction, accumulate, fold};
use std::alloc::{AllocError, Global};
use std::test::Fail;
use vocabulary::{BasicType, Operation};

fn int32s(alloc: Global, numbers: &[u8]) -> Result<Buffer, AllocError> {
    let mut buffer = Buffer::new(alloc, BasicType::Int32);
    for number in numbers {
        buffer.push_number(u64::from(*number))?;
    }
    Ok(buffer)
}

fn member(alloc: Global, number: u64) -> Result<Buffer, AllocError> {
    let mut buffer = Buffer::new(alloc, BasicType::Uint64);
    buffer.push_number(number)?;
    Ok(buffer)
}

/// Whether a buffer holds just these numbers.
fn holds(buffer: &Buffer, numbers: &[u64]) -> bool {
    if buffer.len() != numbers.len() {
        return false;
    }
    for (place, number) in numbers.iter().enumerate() {
        if buffer.get(place) != Some(*number) {
            return false;
        }
    }
    true
}

/// Whether a layout that was made has these offsets and this extent.
fn has(made: Result<Layout, LayoutRefusal>, offsets: &[u32], extent: u32) -> bool {
    match made {
        Ok(layout) => layout.offsets() == offsets && layout.extent() == extent,
        Err(_) => false,
    }
}

fn int32(alloc: Global) -> Option<Layout> {
    Layout::new(alloc, BasicType::Int32).ok()
}

/// The first of each three elements, twice.
fn vector(alloc: Global) -> Option<Layout> {
    int32(alloc)?.vector(alloc, 2, 1, 3).ok()
}

/// Two elements from place 1 on, and one at place 5.
fn indexed(alloc: Global) -> Option<Layout> {
    let blocks = [
        IndexedBlock {
            length: 2,
            displacement: 1,
        },
        IndexedBlock {
            length: 1,
            displacement: 5,
        },
    ];
    int32(alloc)?.indexed(alloc, &blocks).ok()
}

/// Whether the layouts of a vector, of two copies of it, and of blocks are the worked ones.
fn layouts(alloc: Global) -> Option<[bool; 2]> {
    let vector = vector(alloc)?;
    Some([
        vector.offsets() == [0, 3].as_slice() && vector.extent() == 4,
        has(vector.contiguous(alloc, 2), &[0, 3, 4, 7], 8),
    ])
}

#[test]
fn layouts_have_their_offsets(rt: HostRuntime) {
    assert_eq!(rt; layouts(rt.alloc()), Some([true; 2]));
}

/// Whether the layout of blocks has its offsets, its extent, and how many copies of it 2 and 6 elements are.
fn blocks(alloc: Global) -> Option<(bool, u32, [Option<u64>; 2])> {
    let indexed = indexed(alloc)?;
    let counts = [indexed.get_count(2), indexed.get_count(6)];
    let is_worked = indexed.offsets() == [1, 2, 5].as_slice();
    Some((is_worked, indexed.extent(), counts))
}

#[test]
fn blocks_have_their_offsets(rt: HostRuntime) {
    assert_eq!(rt; blocks(rt.alloc()), Some((true, 5, [None, Some(2)])));
}

/// The number with which so many copies of a layout are refused.
fn number_of_copies(alloc: Global, layout: &Layout, count: u64) -> Option<u8> {
    match layout.contiguous(alloc, count) {
        Ok(_) => None,
        Err(refusal) => Some(refusal.number()),
    }
}

#[test]
fn layouts_have_1048576_entries(rt: HostRuntime) {
    let int32 = Layout::new(rt.alloc(), BasicType::Int32).expect(&rt, "a layout");
    let numbers = (
        number_of_copies(rt.alloc(), &int32, 1_048_576),
        number_of_copies(rt.alloc(), &int32, 1_048_577),
    );
    assert_eq!(rt; numbers, (None, Some(13)));
}

/// Whether the elements 1 and 4 of 1 to 4 are sent.
fn sent(alloc: Global, layout: &Layout) -> Option<bool> {
    let four = int32s(alloc, &[1, 2, 3, 4]).ok()?;
    match four.pack(alloc, layout, 1) {
        Ok(packed) => Some(holds(&packed, &[1, 4])),
        Err(_) => None,
    }
}

#[test]
fn elements_are_sent(rt: HostRuntime) {
    let layout = vector(rt.alloc()).expect(&rt, "a layout");
    assert_eq!(rt; sent(rt.alloc(), &layout), Some(true));
}

/// The elements 0 to 71.
fn counted(alloc: Global) -> Result<Buffer, AllocError> {
    let mut buffer = Buffer::new(alloc, BasicType::Int32);
    for number in 0..72 {
        buffer.push_number(number)?;
    }
    Ok(buffer)
}

/// Elements of what two copies of two blocks of 16 send of 0 to 71, where the second block begins at
/// 20: the first, those on both sides of the gap in a block and between copies, and the last.
fn sent_blocks(alloc: Global) -> Option<[Option<u64>; 6]> {
    let layout = int32(alloc)?.vector(alloc, 2, 16, 20).ok()?;
    let packed = counted(alloc).ok()?.pack(alloc, &layout, 2).ok()?;
    Some([
        packed.get(0),
        packed.get(15),
        packed.get(16),
        packed.get(32),
        packed.get(63),
        packed.get(64),
    ])
}

#[test]
fn long_blocks_are_sent(rt: HostRuntime) {
    let elements = [Some(0), Some(15), Some(20), Some(36), Some(71), None];
    assert_eq!(rt; sent_blocks(rt.alloc()), Some(elements));
}

/// Whether a message comes to the places of a layout in a buffer.
fn is_received(message: &WholeBuffer, layout: &Layout, buffer: &mut Buffer) -> bool {
    message.len() as u64 <= layout.place_count(1) && buffer.unpack(message, layout, 1).is_ok()
}

/// Elements of a buffer of 112 zeros that received 72 elements through such blocks: those on both
/// sides of the gaps of the first copy, and the last of the message, which ends in the third copy.
fn received_blocks(alloc: Global) -> Option<[Option<u64>; 6]> {
    let layout = int32(alloc)?.vector(alloc, 2, 16, 20).ok()?;
    let message = counted(alloc).ok()?.into_whole();
    let mut buffer = Buffer::new(alloc, BasicType::Int32);
    buffer.push_copies(0, 112).ok()?;
    if message.len() as u64 > layout.place_count(3) {
        return None;
    }
    buffer.unpack(&message, &layout, 3).ok()?;
    Some([
        buffer.get(15),
        buffer.get(16),
        buffer.get(20),
        buffer.get(36),
        buffer.get(79),
        buffer.get(80),
    ])
}

#[test]
fn long_blocks_are_received(rt: HostRuntime) {
    let elements = [Some(15), Some(0), Some(16), Some(32), Some(71), Some(0)];
    assert_eq!(rt; received_blocks(rt.alloc()), Some(elements));
}

/// Whether 7 and 8 come to places 1 and 2 of six.
fn received(alloc: Global, layout: &Layout) -> Option<bool> {
    let message = int32s(alloc, &[7, 8]).ok()?.into_whole();
    let mut six = int32s(alloc, &[0, 0, 0, 0, 0, 0]).ok()?;
    Some(is_received(&message, layout, &mut six) && holds(&six, &[0, 7, 8, 0, 0, 0]))
}

#[test]
fn elements_are_received(rt: HostRuntime) {
    let layout = indexed(rt.alloc()).expect(&rt, "a layout");
    assert_eq!(rt; received(rt.alloc(), &layout), Some(true));
}

/// A room of 20,000 elements, which are many bytes, behind a message of two.
fn long_room(alloc: Global) -> Option<Buffer> {
    let mut room = Buffer::zeros(alloc, BasicType::Int32, 20_000).ok()?;
    let message = int32s(alloc, &[7, 8]).ok()?.into_whole();
    if room.basic() != message.basic() || message.len() > room.len() {
        return None;
    }
    room.overwrite(&message);
    Some(room)
}

/// Its length, elements on both sides of the message's end, and the last one; those of a part; and how many bytes its
/// first three elements have.
fn long_room_told(alloc: Global) -> Option<([Option<u64>; 4], usize, usize)> {
    let room = long_room(alloc)?;
    let part = match room.len() {
        20_000 => room.part(alloc, 1, 19_999).ok()?,
        _ => return None,
    };
    let elements = [room.get(1), room.get(2), part.get(0), part.get(19_998)];
    let len = room.len();
    Some((elements, len, room.into_front(3).byte_len()))
}

#[test]
fn a_long_room_has_the_message_and_zeros(rt: HostRuntime) {
    let elements = [Some(8), Some(0), Some(8), Some(0)];
    assert_eq!(rt; long_room_told(rt.alloc()), Some((elements, 20_000, 12)));
}

/// Whether a long room's bytes are as many as it tells, the second element's and the last one's among them.
fn has_long_bytes(alloc: Global) -> Option<bool> {
    let room = long_room(alloc)?;
    let mut bytes = Vec::new(alloc);
    room.append_to(&mut bytes).ok()?;
    let whole = room.try_clone(alloc).ok()?.into_whole();
    let is_same = whole.as_bytes() == bytes.as_slice() && bytes.len() == 80_000;
    Some(is_same && bytes.get(7) == Some(&8) && bytes.last() == Some(&0))
}

#[test]
fn a_long_room_has_all_its_bytes(rt: HostRuntime) {
    assert_eq!(rt; has_long_bytes(rt.alloc()), Some(true));
}

/// Whether an element of int8 is told by this text.
fn is_told(alloc: Global, number: u64, text: &str) -> bool {
    let element = Element {
        basic: BasicType::Int8,
        number,
    };
    match element.to_string(alloc) {
        Ok(told) => told.as_str() == text,
        Err(_) => false,
    }
}

#[test]
fn elements_of_signed_types_have_signs(rt: HostRuntime) {
    assert!(rt; is_told(rt.alloc(), 200, "-56"));
    assert_eq!(rt; number_of(BasicType::Int8, true, 56), Some(200));
}

#[test]
fn operations_are_defined_on_their_types(rt: HostRuntime) -> Result<(), Fail> {
    let sum = Reduction::new(Operation::Sum, BasicType::Int8)?;
    assert!(rt; sum.basic() == BasicType::Int8);
    match Reduction::new(Operation::Land, BasicType::Byte) {
        Err(refusal) => assert_eq!(rt; refusal, LayoutRefusal::NotDefined),
        Ok(_) => assert!(rt; false),
    }
    Ok(())
}

#[test]
fn reductions_give_the_worked_values(rt: HostRuntime) -> Result<(), Fail> {
    let sum = Reduction::new(Operation::Sum, BasicType::Int8)?;
    assert_eq!(rt; sum.combine(100, 100), 200);
    let product = Reduction::new(Operation::Prod, BasicType::Uint8)?;
    assert_eq!(rt; product.combine(20, 20), 144);
    let affine = Reduction::new(Operation::Affine, BasicType::Uint64)?;
    let two = affine.combine(8_589_934_593, 12_884_901_893);
    assert_eq!(rt; affine.combine(two, 17_179_869_191), 103_079_215_143);
    let late = affine.combine(17_179_869_191, 8_589_934_593);
    assert_eq!(rt; affine.combine(late, 12_884_901_893), 103_079_215_154);
    Ok(())
}

/// Whether 1 and 2 with 10 and 20 are 11 and 22.
fn accumulated(alloc: Global) -> Option<bool> {
    let sum = Reduction::new(Operation::Sum, BasicType::Int32).ok()?;
    let mut all = int32s(alloc, &[1, 2]).ok()?;
    let next = int32s(alloc, &[10, 20]).ok()?;
    if next.len() == all.len() {
        accumulate(&sum, &mut all, &next);
    }
    Some(holds(&all, &[11, 22]))
}

#[test]
fn members_are_combined(rt: HostRuntime) {
    assert_eq!(rt; accumulated(rt.alloc()), Some(true));
}

/// Appends two fives, and answers how many bytes there were.
fn push_fives(buffer: &mut Buffer) -> usize {
    let before = buffer.byte_len();
    let _told = buffer.push_copies(5, 2);
    before
}

/// How many bytes a copy has, and whether copies of a number are appended to it.
fn copied(alloc: Global) -> Option<(usize, bool)> {
    let two = int32s(alloc, &[11, 22]).ok()?;
    let mut copy = two.try_clone(alloc).ok()?;
    let before = push_fives(&mut copy);
    Some((before, holds(&copy, &[11, 22, 5, 5]) && !copy.is_empty()))
}

#[test]
fn copies_are_appended(rt: HostRuntime) {
    assert_eq!(rt; copied(rt.alloc()), Some((8, true)));
}

/// Whether three members of affine are combined to this number, in this order.
fn is_folded(alloc: Global, first: u64, rest: [u64; 2], number: u64) -> bool {
    let Ok(affine) = Reduction::new(Operation::Affine, BasicType::Uint64) else {
        return false;
    };
    let (Ok(first), Ok(second), Ok(third)) = (
        member(alloc, first),
        member(alloc, rest[0]),
        member(alloc, rest[1]),
    ) else {
        return false;
    };
    match fold(&affine, alloc, &first, &[second, third]) {
        Ok(all) => holds(&all, &[number]),
        Err(_) => false,
    }
}

#[test]
fn members_are_folded_in_the_order_of_their_ranks(rt: HostRuntime) {
    let (one, two, three) = (8_589_934_593, 12_884_901_893, 17_179_869_191);
    assert!(rt; is_folded(rt.alloc(), one, [two, three], 103_079_215_143));
    // In the order of arrival 3, 1, 2 the value is another one.
    assert!(rt; is_folded(rt.alloc(), three, [one, two], 103_079_215_154));
}

/// The number with which so many copies of zero are refused.
fn number_of_zeros(buffer: &mut Buffer, count: usize) -> Option<u8> {
    match buffer.push_copies(0, count) {
        Ok(()) => None,
        Err(refused) => Some(LayoutRefusal::from(refused).number()),
    }
}

#[test]
fn refused_growths_have_the_number_14(rt: HostRuntime) {
    // No memory holds so many bytes: the growth is refused, and the buffer stays as it was.
    let mut buffer = Buffer::new(rt.alloc(), BasicType::Uint64);
    let number = number_of_zeros(&mut buffer, 1_152_921_504_606_846_975);
    assert_eq!(rt; (number, buffer.len()), (Some(14), 0));
}

/// The number with which as many copies as there are elements are refused, of a layout that has 2^20 times the same
/// place.
fn number_of_packed(alloc: Global, buffer: &Buffer) -> Option<u8> {
    let number = Layout::new(alloc, BasicType::Uint64).ok()?;
    let repeated = number.vector(alloc, 1_048_576, 1, 0).ok()?;
    match buffer.pack(alloc, &repeated, 16_777_216) {
        Ok(_) => None,
        Err(refusal) => Some(refusal.number()),
    }
}

#[test]
fn refused_messages_have_the_number_14(rt: HostRuntime) {
    // They would be 2^44 elements of 8 bytes.
    let mut buffer = Buffer::new(rt.alloc(), BasicType::Uint64);
    let filled = number_of_zeros(&mut buffer, 16_777_216);
    let packed = number_of_packed(rt.alloc(), &buffer);
    assert_eq!(rt;
        (filled, packed, buffer.len()),
        (None, Some(14), 16_777_216)
    );
}

//! The bytes of what ranks send as they make communicators, header, frame, and what the frame says; and of
//! acknowledgements. They were not taken from what this program writes, but from a model that was written apart from it
//! (tools/random_worlds).
//!
//! Bytes 40 to 47 of a frame's datagram are the context of the communicator that it is on, and bytes 68 to 75, where
//! they are there, the one of the communicator that was made.

use crate::world_steps::{End, Told, WORLD, all_are_spelled, deliver, enter, send, tick};
use engine::{Choice, Entry};
use std::alloc::Global;
use world::World;

/// A communicator that was made, at this place of its rank.
fn made(place: usize) -> Told {
    Told::Ended(End::Comm(Some(place)))
}

/// A split with this colour and key.
fn split(colour: Option<u32>, key: i32) -> Entry {
    Entry::Split(Choice { colour, key })
}

/// Three ranks copy world, and rank 1 sends the element 4 on the copy to rank 2, with tag 6, which comes before the
/// copy does: what the deliveries tell.
fn copy_of_three(alloc: Global, world: &mut World) -> Option<[Told; 5]> {
    enter(world, 1, WORLD, Entry::Dup);
    enter(world, 2, WORLD, Entry::Dup);
    enter(world, 0, WORLD, Entry::Dup);
    let towards = [deliver(world, 0), deliver(world, 1)];
    let back = deliver(world, 4);
    send(alloc, world, 1, Some(2), 2, 6, 4)?;
    let early = deliver(world, 7);
    Some([towards[0], towards[1], back, early, deliver(world, 5)])
}

#[test]
fn a_copy_is_told_in_these_bytes(rt: HostRuntime) {
    let mut world = World::new(rt.alloc(), 3).expect(&rt, "a world");
    assert_eq!(rt;
        copy_of_three(rt.alloc(), &mut world),
        Some([Told::Nothing, made(2), made(2), Told::Nothing, made(2)])
    );
    assert!(rt;
        all_are_spelled(
            rt.alloc(),
            &world,
            &[
                (
                    0,
                    "4d50554402010001000000000000002400000000000000010000000000000000010109000000000000000000000000000000001007000000000000000000000000000000"
                ),
                (
                    1,
                    "4d50554402010002000000000000002400000000000000010000000000000000010109000000000000000000000000000000001007000000000000000000000000000000"
                ),
                (
                    4,
                    "4d50554402010000000100000000002c000000000000000100000000000000000101090000000000000000000000000000000018070000010000000000000000000000000000000000000002"
                ),
                (
                    5,
                    "4d50554402010000000200000000002c000000000000000100000000000000000101090000000000000000000000000000000018070000010000000000000000000000000000000000000002"
                ),
                (
                    7,
                    "4d50554402010001000200000000001800000000000000010000000000000000010003000000000600000000000000020000000100000004"
                ),
            ],
        )
    );
}

/// World is split into [1], [0, 2] and nothing: what the deliveries tell.
fn split_of_four(world: &mut World) -> [Told; 6] {
    enter(world, 0, WORLD, split(Some(1), 5));
    enter(world, 1, WORLD, split(Some(0), 0));
    enter(world, 2, WORLD, split(Some(1), 5));
    enter(world, 3, WORLD, split(None, 0));
    [
        deliver(world, 0),
        deliver(world, 1),
        deliver(world, 2),
        deliver(world, 6),
        deliver(world, 7),
        deliver(world, 8),
    ]
}

/// What the ranks send as world is split into [1], [0, 2] and nothing: the places of the datagrams, and their bytes.
const SPLIT_OF_FOUR: [(usize, &str); 6] = [
    (
        0,
        "4d50554402010001000000000000002d00000000000000010000000000000000010109000000000000000000000000000000001908000000000000000000000000000000010000000000000000",
    ),
    (
        1,
        "4d50554402010002000000000000002d00000000000000010000000000000000010109000000000000000000000000000000001908000000000000000000000000000000010000000100000005",
    ),
    (
        2,
        "4d50554402010003000000000000002d00000000000000010000000000000000010109000000000000000000000000000000001908000000000000000000000000000000000000000000000000",
    ),
    (
        6,
        "4d50554402010000000100000000002e00000000000000010000000000000000010109000000000000000000000000000000001a0800000100000000000000000000000000000000000000020001",
    ),
    (
        7,
        "4d50554402010000000200000000003000000000000000010000000000000000010109000000000000000000000000000000001c08000001000000000000000000000000000000000000000300000002",
    ),
    (
        8,
        "4d50554402010000000300000000002400000000000000010000000000000000010109000000000000000000000000000000001008000001000000000000000000000000",
    ),
];

/// The answers bring contexts 2 and 3, and none.
#[test]
fn a_split_is_told_in_these_bytes(rt: HostRuntime) {
    let mut world = World::new(rt.alloc(), 4).expect(&rt, "a world");
    assert_eq!(rt;
        split_of_four(&mut world),
        [
            Told::Nothing,
            Told::Nothing,
            made(2),
            made(2),
            made(2),
            Told::Ended(End::Comm(None)),
        ]
    );
    assert!(rt; all_are_spelled(rt.alloc(), &world, &SPLIT_OF_FOUR,));
}

/// World is split into [0, 1] and [2, 3]: what the last answer tells.
fn two_halves(world: &mut World) -> Told {
    enter(world, 0, WORLD, split(Some(0), 0));
    enter(world, 1, WORLD, split(Some(0), 0));
    enter(world, 2, WORLD, split(Some(1), 0));
    enter(world, 3, WORLD, split(Some(1), 0));
    deliver(world, 0);
    deliver(world, 1);
    deliver(world, 2);
    deliver(world, 6);
    deliver(world, 7);
    deliver(world, 8)
}

/// Both halves are copied at once, and in each copy rank 1 sends to rank 0: what the deliveries tell.
fn two_copies(alloc: Global, world: &mut World) -> Option<[Told; 4]> {
    enter(world, 0, Some(2), Entry::Dup);
    enter(world, 2, Some(2), Entry::Dup);
    enter(world, 3, Some(2), Entry::Dup);
    enter(world, 1, Some(2), Entry::Dup);
    let told = [
        deliver(world, 13),
        deliver(world, 12),
        deliver(world, 15),
        deliver(world, 17),
    ];
    send(alloc, world, 1, Some(3), 0, 5, 1)?;
    send(alloc, world, 3, Some(3), 0, 5, 3)?;
    Some(told)
}

/// What goes out as two groups are copied at once: the places of the datagrams, and their bytes.
const COPIES_OF_TWO_GROUPS: [(usize, &str); 12] = [
    (
        0,
        "4d50554402010001000000000000002d00000000000000010000000000000000010109000000000000000000000000000000001908000000000000000000000000000000010000000000000000",
    ),
    (
        1,
        "4d50554402010002000000000000002d00000000000000010000000000000000010109000000000000000000000000000000001908000000000000000000000000000000010000000100000000",
    ),
    (
        2,
        "4d50554402010003000000000000002d00000000000000010000000000000000010109000000000000000000000000000000001908000000000000000000000000000000010000000100000000",
    ),
    (
        6,
        "4d50554402010000000100000000003000000000000000010000000000000000010109000000000000000000000000000000001c08000001000000000000000000000000000000000000000200000001",
    ),
    (
        7,
        "4d50554402010000000200000000003000000000000000010000000000000000010109000000000000000000000000000000001c08000001000000000000000000000000000000000000000300020003",
    ),
    (
        8,
        "4d50554402010000000300000000003000000000000000010000000000000000010109000000000000000000000000000000001c08000001000000000000000000000000000000000000000300020003",
    ),
    (
        12,
        "4d50554402010003000200000000002400000000000000010000000000000000010109000000000000000000000000030000001007000000000000000000000000000000",
    ),
    (
        13,
        "4d50554402010001000000000000002400000000000000010000000000000001010109000000000000000000000000020000001007000000000000000000000000000000",
    ),
    (
        15,
        "4d50554402010000000100000000002c000000000000000100000000000000010101090000000000000000000000000200000018070000010000000000000000000000000000000000000004",
    ),
    (
        17,
        "4d50554402010002000300000000002c000000000000000100000000000000000101090000000000000000000000000300000018070000010000000000000000000000000002000000000002",
    ),
    (
        20,
        "4d50554402010001000000000000001800000000000000010000000000000002010003000000000500000000000000040000000100000001",
    ),
    (
        21,
        "4d50554402010003000200000000001800000000000000010000000000000001010003000000000500020000000000020000000100000003",
    ),
];

/// Contexts 4 of rank 0, and 2 of rank 2.
#[test]
fn two_groups_copy_at_once_in_these_bytes(rt: HostRuntime) {
    let mut world = World::new(rt.alloc(), 4).expect(&rt, "a world");
    assert_eq!(rt; two_halves(&mut world), made(2));
    assert_eq!(rt; two_copies(rt.alloc(), &mut world), Some([made(3); 4]));
    assert!(rt; all_are_spelled(rt.alloc(), &world, &COPIES_OF_TWO_GROUPS,));
}

/// Rank 2 splits what the others copy: what the deliveries tell. Then all copy it.
fn different(world: &mut World) -> ([Told; 4], [Told; 4]) {
    enter(world, 1, WORLD, Entry::Dup);
    enter(world, 2, WORLD, split(Some(0), 0));
    enter(world, 0, WORLD, Entry::Dup);
    let first = [
        deliver(world, 0),
        deliver(world, 1),
        deliver(world, 4),
        deliver(world, 5),
    ];
    enter(world, 0, WORLD, Entry::Dup);
    enter(world, 1, WORLD, Entry::Dup);
    enter(world, 2, WORLD, Entry::Dup);
    let second = [
        deliver(world, 8),
        deliver(world, 9),
        deliver(world, 12),
        deliver(world, 13),
    ];
    (first, second)
}

/// What goes out as two ranks enter differently: the places of the datagrams, and their bytes.
const DIFFERENCE: [(usize, &str); 8] = [
    (
        0,
        "4d50554402010001000000000000002400000000000000010000000000000000010109000000000000000000000000000000001007000000000000000000000000000000",
    ),
    (
        1,
        "4d50554402010002000000000000002d00000000000000010000000000000000010109000000000000000000000000000000001908000000000000000000000000000000010000000000000000",
    ),
    (
        4,
        "4d50554402010000000100000000002400000000000000010000000000000000010109000000000000000000000000000000001007000002000000000000000000000000",
    ),
    (
        5,
        "4d50554402010000000200000000002400000000000000010000000000000000010109000000000000000000000000000000001007000002000000000000000000000000",
    ),
    (
        8,
        "4d50554402010001000000000000002400000000000000010000000000000001010109000000000100000000000000000000001007000000000000000000000000000000",
    ),
    (
        9,
        "4d50554402010002000000000000002400000000000000010000000000000001010109000000000100000000000000000000001007000000000000000000000000000000",
    ),
    (
        12,
        "4d50554402010000000100000000002c000000000000000100000000000000010101090000000001000000000000000000000018070000010000000000000000000000000000000000000002",
    ),
    (
        13,
        "4d50554402010000000200000000002c000000000000000100000000000000010101090000000001000000000000000000000018070000010000000000000000000000000000000000000002",
    ),
];

#[test]
fn a_difference_is_told_in_these_bytes(rt: HostRuntime) {
    let mut world = World::new(rt.alloc(), 3).expect(&rt, "a world");
    let mismatch = Told::Ended(End::Mismatch);
    assert_eq!(rt;
        different(&mut world),
        (
            [Told::Nothing, mismatch, mismatch, mismatch],
            [Told::Nothing, made(2), made(2), made(2)],
        )
    );
    assert!(rt; all_are_spelled(rt.alloc(), &world, &DIFFERENCE,));
}

/// Three messages of rank 0 to rank 1, of which the last one comes first, and is sent again with the first two: what is
/// told. The last acknowledgement is of all.
fn early_of_three(alloc: Global, world: &mut World) -> Option<[Told; 5]> {
    for _ in 0..3u8 {
        send(alloc, world, 0, WORLD, 1, 7, 1)?;
    }
    let early = deliver(world, 2);
    let told = deliver(world, 3);
    let clock = tick(world, 0, 20);
    let first = deliver(world, 0);
    Some([early, told, clock, first, deliver(world, 1)])
}

/// What is held stands in acknowledgements: frame 2, then the same behind frame 1, then nothing. A frame that was told
/// isn't sent again.
#[test]
fn acknowledgements_tell_what_is_held_in_these_bytes(rt: HostRuntime) {
    let mut world = World::new(rt.alloc(), 2).expect(&rt, "a world");
    assert_eq!(rt;
        early_of_three(rt.alloc(), &mut world),
        Some([Told::Nothing; 5])
    );
    assert!(rt;
        all_are_spelled(
            rt.alloc(),
            &world,
            &[
                (
                    3,
                    "4d505544020200010000000000000008000000000000000100000000000000000000000000000004"
                ),
                (
                    4,
                    "4d50554402010000000100000000001800000000000000010000000000000000010003000000000700000000000000000000000100000001"
                ),
                (
                    5,
                    "4d50554402010000000100000000001800000000000000010000000000000001010003000000000700000000000000000000000100000001"
                ),
                (
                    6,
                    "4d505544020200010000000000000008000000000000000100000000000000010000000000000002"
                ),
                (
                    7,
                    "4d505544020200010000000000000008000000000000000100000000000000030000000000000000"
                ),
            ],
        )
    );
    assert!(rt; world.datagram(8).is_none());
}

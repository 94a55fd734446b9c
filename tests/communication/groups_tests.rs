//! The worked groups, and each call with ample memory.

use groups::{Group, GroupComparison, GroupRefusal};
use std::alloc::Global;
use std::process::Abort;

/// The group of these ranks.
fn group(rt: &impl Abort, alloc: Global, ranks: &[u16]) -> Group {
    Group::from_ranks(alloc, ranks).expect(rt, "a group")
}

/// Whether a group that was made holds just these ranks, in this order.
fn has(made: Result<Group, GroupRefusal>, ranks: &[u16]) -> bool {
    match made {
        Ok(group) => group.ranks() == ranks,
        Err(_) => false,
    }
}

/// Why a group was refused.
fn refusal(made: Result<Group, GroupRefusal>) -> Option<GroupRefusal> {
    match made {
        Ok(_) => None,
        Err(refused) => Some(refused),
    }
}

/// Whether the union, the intersection and the difference of 3, 1, 4 and 4, 0, 3, 2 are the worked ones.
fn of_two(a: &Group, b: &Group) -> [bool; 3] {
    [
        has(a.union(b), &[3, 1, 4, 0, 2]),
        has(a.intersection(b), &[3, 4]),
        has(a.difference(b), &[1]),
    ]
}

#[test]
fn groups_are_made_of_two(rt: HostRuntime) {
    let a = group(&rt, rt.alloc(), &[3, 1, 4]);
    let b = group(&rt, rt.alloc(), &[4, 0, 3, 2]);
    assert_eq!(rt; of_two(&a, &b), [true; 3]);
}

/// The places in another group of the members 0 to 3.
fn translated(a: &Group, b: &Group) -> [Option<u16>; 4] {
    [
        a.translate(0, b),
        a.translate(1, b),
        a.translate(2, b),
        a.translate(3, b),
    ]
}

#[test]
fn ranks_are_translated(rt: HostRuntime) {
    let a = group(&rt, rt.alloc(), &[3, 1, 4]);
    let b = group(&rt, rt.alloc(), &[4, 0, 3, 2]);
    assert_eq!(rt; translated(&a, &b), [Some(2), None, Some(0), None]);
}

/// How a group of these ranks compares with another.
fn compared(rt: &impl Abort, alloc: Global, a: &Group, ranks: &[u16]) -> GroupComparison {
    a.compare(&group(rt, alloc, ranks))
}

#[test]
fn groups_are_compared(rt: HostRuntime) {
    let a = group(&rt, rt.alloc(), &[3, 1, 4]);
    let answers = [
        compared(&rt, rt.alloc(), &a, &[3, 1, 4]),
        compared(&rt, rt.alloc(), &a, &[1, 3, 4]),
        compared(&rt, rt.alloc(), &a, &[1, 3, 5]),
    ];
    assert_eq!(rt;
        answers,
        [
            GroupComparison::Ident,
            GroupComparison::Similar,
            GroupComparison::Unequal
        ]
    );
}

fn selected(a: &Group) -> [bool; 2] {
    [has(a.incl(&[2, 0]), &[4, 3]), has(a.excl(&[2, 0]), &[1])]
}

#[test]
fn members_are_selected_by_position(rt: HostRuntime) {
    let a = group(&rt, rt.alloc(), &[3, 1, 4]);
    assert_eq!(rt; selected(&a), [true; 2]);
}

/// Why selections of these positions are refused.
fn refused(a: &Group, positions: &[u16]) -> [Option<GroupRefusal>; 2] {
    [refusal(a.incl(positions)), refusal(a.excl(positions))]
}

#[test]
fn a_missing_position_comes_before_a_repeated_one(rt: HostRuntime) {
    let a = group(&rt, rt.alloc(), &[3, 1, 4]);
    let found = [
        refused(&a, &[1, 1, 3]),
        refused(&a, &[3, 0, 0]),
        refused(&a, &[0, 1, 0]),
    ];
    let missing = Some(GroupRefusal::NoSuchPosition);
    let repeated = Some(GroupRefusal::Repeated);
    assert_eq!(rt; found, [[missing; 2], [missing; 2], [repeated; 2]]);
}

#[test]
fn groups_are_made(rt: HostRuntime) {
    let repeated = refusal(Group::from_ranks(rt.alloc(), &[3, 1, 3]));
    assert_eq!(rt; repeated, Some(GroupRefusal::Repeated));
    assert!(rt; has(Ok(Group::of_rank(rt.alloc(), 7)), &[7]));
    assert!(rt; has(Group::of_first_ranks(rt.alloc(), 3), &[0, 1, 2]));
}

#[test]
fn groups_are_copied(rt: HostRuntime) {
    let a = group(&rt, rt.alloc(), &[65535, 1]);
    assert!(rt; has(a.try_clone(), &[65535, 1]));
}

/// How many members there are, some by position, some positions by rank, and whether some are there.
fn read(a: &Group) -> ((usize, bool), [Option<u16>; 4], [bool; 2]) {
    let places = [
        a.member(2),
        a.member(3),
        a.position_of(65535),
        a.position_of(2),
    ];
    (
        (a.len(), a.is_empty()),
        places,
        [a.contains(1), a.contains(2)],
    )
}

#[test]
fn groups_are_read(rt: HostRuntime) {
    let a = group(&rt, rt.alloc(), &[65535, 1, 4]);
    assert_eq!(rt;
        read(&a),
        ((3, false), [Some(4), None, Some(0), None], [true, false])
    );
}

/// How many members there are once all stand behind one of them, and how that compares.
fn turned(last: &Group, world: &Group) -> Option<(usize, GroupComparison)> {
    match last.union(world) {
        Ok(turned) => Some((turned.len(), turned.compare(world))),
        Err(_) => None,
    }
}

#[test]
fn a_thousand_members_need_an_allocation(rt: HostRuntime) {
    let world = Group::of_first_ranks(rt.alloc(), 1024).expect(&rt, "a group");
    let last = Group::of_rank(rt.alloc(), 1023);
    assert_eq!(rt;
        turned(&last, &world),
        Some((1024, GroupComparison::Similar))
    );
}

//! Groups of communicators that several owners share.

use communicator_members::{Members, share_group, status_in};
use std::alloc::Global;
use vocabulary::{Source, Status};

/// Whether the members are ranks 4 and 2 of world.
fn is_worked(members: &Members) -> bool {
    members.as_slice() == [4u16, 2].as_slice()
}

/// Whether one more owner has the same members, and their ranks and that of one who is none.
fn share(members: &Members) -> Option<(bool, [u16; 3])> {
    let other = members.share().ok()?;
    let ranks = [other.rank_of(4), other.rank_of(2), other.rank_of(3)];
    Some((is_worked(&other), ranks))
}

#[test]
fn members_are_shared(rt: HostRuntime) {
    let members = Members::from_slice(rt.alloc(), &[4, 2]).expect(&rt, "members");
    assert_eq!(rt; share(&members), Some((true, [0, 1, 2])));
}

/// A status that names this source.
fn status_of(source: Source) -> Status {
    Status {
        source,
        tag: Some(7),
        count: 3,
    }
}

/// The group of ranks 4 and 2 of world.
fn group(alloc: Global) -> Option<Members> {
    Members::from_slice(alloc, &[4, 2]).ok()
}

/// A status of rank 2 of world, and one with no source, as one more owner of the group is told.
fn told(group: &Option<Members>) -> Option<[Status; 2]> {
    let other = share_group(group).ok()?;
    Some([
        status_in(&other, status_of(Source::Rank(2))),
        status_in(&other, status_of(Source::Null)),
    ])
}

#[test]
fn a_status_names_a_rank_of_its_group(rt: HostRuntime) {
    let group = group(rt.alloc());
    let statuses = [status_of(Source::Rank(1)), status_of(Source::Null)];
    assert_eq!(rt; told(&group), Some(statuses));
}

#[test]
fn a_status_in_world_names_a_rank_of_world(rt: HostRuntime) {
    let statuses = [status_of(Source::Rank(2)), status_of(Source::Null)];
    assert_eq!(rt; told(&None), Some(statuses));
}

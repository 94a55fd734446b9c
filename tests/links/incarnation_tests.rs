//! Who a datagram is from, and whom it is meant for, in the order of the rules.

use datagram::Header;
use incarnation::*;
use std::alloc::Global;
use vocabulary::{Endpoint, MessageLimit};

fn endpoint(rank: u16, incarnation: u16) -> Endpoint {
    Endpoint { rank, incarnation }
}

/// The header of a datagram of job 1.
fn header(source: Endpoint, target: Endpoint) -> Header {
    Header {
        source,
        target,
        job: 1,
        sequence: 0,
    }
}

/// A process of job 1, which has two ranks.
fn place(endpoint: Endpoint) -> Place {
    Place {
        endpoint,
        size: 2,
        job: 1,
        message_limit: MessageLimit::least(),
    }
}

type Judged = Result<Judgement, IncarnationRefusal>;

/// How datagrams of a former and a later incarnation of rank 1 are judged.
fn judge_both(peers: &Peers) -> (Judged, Judged) {
    let former = header(endpoint(1, 0), endpoint(0, 0));
    let later = header(endpoint(1, 1), endpoint(0, 0));
    (peers.judge(former), peers.judge(later))
}

/// What is known of both ranks, and how datagrams of both incarnations of rank 1 are judged, before rank 1 is learnt at
/// its later incarnation, then, and after a try to learn it at its former one.
fn learn_later(alloc: Global) -> Option<([(Judged, Judged); 3], [(u16, u16); 3])> {
    let mut peers = Peers::new(alloc, place(endpoint(0, 0))).ok()?;
    let first = (peers.known(0), peers.known(1));
    let before = judge_both(&peers);
    peers.learn(1, 1);
    let second = (peers.known(0), peers.known(1));
    let after = judge_both(&peers);
    peers.learn(1, 0);
    let third = (peers.known(0), peers.known(1));
    Some(([before, after, judge_both(&peers)], [first, second, third]))
}

#[test]
fn a_restarted_sender_is_learnt_and_its_former_datagrams_are_stale(rt: HostRuntime) {
    let before = (Ok(Judgement::Current), Ok(Judgement::Learn(1)));
    let after = (Err(IncarnationRefusal::StaleSource), Ok(Judgement::Current));
    assert_eq!(rt;
        learn_later(rt.alloc()),
        Some(([before, after, after], [(0, 0), (0, 1), (0, 1)]))
    );
}

/// What a restarted rank 1 knows, and how datagrams for its former self and for its present one are judged.
fn restarted(alloc: Global) -> Option<(Place, (u16, u16), Judged, Judged)> {
    let peers = Peers::new(alloc, place(endpoint(1, 1))).ok()?;
    let former = header(endpoint(0, 0), endpoint(1, 0));
    let present = header(endpoint(0, 0), endpoint(1, 1));
    let known = (peers.known(0), peers.known(1));
    Some((
        peers.place(),
        known,
        peers.judge(former),
        peers.judge(present),
    ))
}

#[test]
fn a_restarted_receiver_takes_nothing_that_was_meant_for_its_former_self(rt: HostRuntime) {
    assert_eq!(rt;
        restarted(rt.alloc()),
        Some((
            place(endpoint(1, 1)),
            (0, 1),
            Err(IncarnationRefusal::StaleTarget),
            Ok(Judgement::Current)
        ))
    );
}

/// How a datagram is judged by rank 0 at incarnation 1, which knows rank 1 at incarnation 1.
fn judged(alloc: Global, header: Header) -> Option<Judged> {
    let mut peers = Peers::new(alloc, place(endpoint(0, 1))).ok()?;
    peers.learn(1, 1);
    Some(peers.judge(header))
}

#[test]
fn the_first_broken_rule_is_answered(rt: HostRuntime) {
    let stale = header(endpoint(1, 0), endpoint(0, 0));
    let foreign = Header { job: 2, ..stale };
    for (header, fault) in [
        (foreign, IncarnationRefusal::ForeignJob),
        (
            header(endpoint(1, 0), endpoint(1, 0)),
            IncarnationRefusal::NotForMe,
        ),
        (
            header(endpoint(1, 0), endpoint(0, 2)),
            IncarnationRefusal::NotForMe,
        ),
        (
            header(endpoint(0, 0), endpoint(0, 0)),
            IncarnationRefusal::NotForMe,
        ),
        (
            header(endpoint(2, 0), endpoint(0, 0)),
            IncarnationRefusal::NotForMe,
        ),
        (stale, IncarnationRefusal::StaleSource),
        (
            header(endpoint(1, 2), endpoint(0, 0)),
            IncarnationRefusal::StaleTarget,
        ),
    ] {
        assert_eq!(rt; judged(rt.alloc(), header), Some(Err(fault)));
    }
}

#[test]
fn incarnations_end_at_65535(rt: HostRuntime) {
    assert_eq!(rt; next_incarnation(0), Ok(1));
    assert_eq!(rt; next_incarnation(65_534), Ok(65_535));
    assert_eq!(rt; next_incarnation(65_535), Err(IncarnationRefusal::Limit));
    known_never_falls();
    stale_sources_stay_stale();
    what_is_handled_is_known();
}

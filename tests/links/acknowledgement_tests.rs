//! Acknowledgements that take one another's place, and how long one is kept back.

use datagram::Header;
use delayed_acknowledgements::*;
use vocabulary::Endpoint;

/// An acknowledgement of job 1 from rank 1 to rank 0, of the frames below 1, which tells that frame 3 is held.
const ACK: [u8; 40] = [
    0x4d, 0x50, 0x55, 0x44, 2, 2, 0, 1, 0, 0, 0, 0, 0, 0, 0, 8, 0, 0, 0, 0, 0, 0, 0, 1, 0, 0, 0, 0,
    0, 0, 0, 1, 0, 0, 0, 0, 0, 0, 0, 4,
];

/// A reset of the same.
const RESET: [u8; 32] = [
    0x4d, 0x50, 0x55, 0x44, 2, 3, 0, 1, 0, 0, 0, 0, 0, 0, 0, 0, 0, 0, 0, 0, 0, 0, 0, 1, 0, 0, 0, 0,
    0, 0, 0, 0,
];

/// An acknowledgement of job 1 from rank 0 to a rank, of the frames below a number, which tells that those are held
/// behind it which the bits of another number stand for.
fn said(rank: u16, sequence: u64, held: u64) -> Acknowledgement {
    let target = Endpoint {
        rank,
        incarnation: 0,
    };
    let source = Endpoint {
        rank: 0,
        incarnation: 0,
    };
    Acknowledgement {
        header: Header {
            source,
            target,
            job: 1,
            sequence,
        },
        held,
    }
}

/// One that tells of no frame that is held, as it is kept back.
fn kept(rank: u16, sequence: u64) -> DelayedAcknowledgement {
    DelayedAcknowledgement {
        target: rank,
        said: said(rank, sequence, 0),
        bytes: [0; 40],
    }
}

#[test]
fn an_acknowledgement_is_known_by_its_bytes(rt: HostRuntime) {
    assert_eq!(rt;
        acknowledgement_in(&ACK).map(|said| (said.header.sequence, said.held)),
        Some((1, 4))
    );
    assert!(rt; acknowledgement_in(&RESET).is_none());
    let shown = delayed_of(7, &ACK).map(|kept| (kept.target, kept.said.held, kept.bytes == ACK));
    assert_eq!(rt; shown, Some((7, 4, true)));
    assert!(rt; delayed_of(7, &RESET).is_none());
    assert!(rt; delayed_of(7, &ACK[..39]).is_none());
}

/// Whether one of so many frames to a rank covers one of two frames to rank 1.
fn covers_two(rank: u16, sequence: u64) -> bool {
    covers(said(rank, sequence, 8), said(1, 2, 0))
}

#[test]
fn a_later_one_says_all_that_an_earlier_one_says(rt: HostRuntime) {
    assert!(rt; covers_two(1, 2) && covers_two(1, 3));
    assert!(rt; !covers_two(1, 1) && !covers_two(2, 3));
    assert!(rt; !covers(said(1, 2, 0), said(1, 2, 4)));
}

/// The rank of the one that goes where one to rank 1 was kept and one to a rank comes.
fn goes_before(rank: u16) -> Option<u16> {
    sent_before(Some(kept(1, 2)), kept(rank, 3)).map(|gone| gone.target)
}

#[test]
fn the_former_one_goes_unless_it_is_covered(rt: HostRuntime) {
    assert!(rt; sent_before(None, kept(1, 2)).is_none());
    assert_eq!(rt; goes_before(1), None);
    assert_eq!(rt; goes_before(2), Some(1));
}

#[test]
fn one_that_tells_of_held_frames_or_says_nothing_new_goes_at_once(rt: HostRuntime) {
    let last = Some(said(1, 2, 0));
    assert!(rt; is_urgent(None, said(1, 2, 4)) && is_urgent(last, said(1, 3, 4)));
    assert!(rt; is_urgent(last, said(1, 2, 0)));
    assert!(rt; !is_urgent(None, said(1, 2, 0)) && !is_urgent(last, said(1, 3, 0)));
    assert!(rt; !is_urgent(last, said(2, 2, 0)));
}

/// Whether one that took the place of so many, behind so many receives, has to go.
fn is_over_behind(begun: Delay, places: u32, receives: u32) -> bool {
    let mut delay = begun;
    for _ in 0..places {
        delay = delay.with_one_more();
    }
    for _ in 0..receives {
        delay = delay.behind_receive();
    }
    delay.is_over()
}

#[test]
fn one_is_kept_for_16_and_for_128_receives(rt: HostRuntime) {
    let begun = Delay::start(None);
    assert!(rt; !is_over_behind(begun, 14, 127));
    assert!(rt; is_over_behind(begun, 15, 0));
    assert!(rt; is_over_behind(begun, 0, 128));
    assert!(rt; begun.is_late(None));
}

//! The texts of answers.

use datatypes::Buffer;
use printed_lines::*;
use std::alloc::Global;
use vocabulary::{BasicType, Endpoint, Source, Status};

fn buffer(alloc: Global) -> Option<Buffer> {
    let mut buffer = Buffer::new(alloc, BasicType::Int8);
    buffer.push_number(255).ok()?;
    buffer.push_number(7).ok()?;
    Some(buffer)
}

const FROM_ANY: Status = Status {
    source: Source::Null,
    tag: None,
    count: 0,
};

const FROM_TWO: Status = Status {
    source: Source::Rank(2),
    tag: Some(9),
    count: 2,
};

/// Whether the answer is written so.
fn is_written(alloc: Global, answer: AnswerText<'_>, text: &str) -> bool {
    match format!(in alloc; "{answer}") {
        Ok(written) => written.as_str() == text,
        Err(_) => false,
    }
}

/// How many of the answers about a buffer are written as they are to be.
fn answers_with_data(alloc: Global) -> Option<usize> {
    let held = buffer(alloc)?;
    let empty = Buffer::new(alloc, BasicType::Int8);
    let several = [
        OutcomeText::Cancelled(&held),
        OutcomeText::Sent,
        OutcomeText::Failed(11),
    ];
    let mut good: usize = 0;
    for (answer, text) in [
        (
            AnswerText::One(OutcomeText::Received(FROM_TWO, &held)),
            "source 2 tag 9 count 2 data -1 7",
        ),
        (
            AnswerText::Index(12, OutcomeText::Ended(10, FROM_ANY, &held)),
            "index 12 error 10 source null tag any count 0 data -1 7",
        ),
        (
            AnswerText::One(OutcomeText::Lost(&held)),
            "error 11 data -1 7",
        ),
        (
            AnswerText::All(&several),
            "cancelled data -1 7; sent; error 11",
        ),
        (AnswerText::Data(&held), "data -1 7"),
        (AnswerText::Data(&empty), "data"),
    ] {
        if is_written(alloc, answer, text) {
            good = good.saturating_add(1);
        }
    }
    Some(good)
}

/// Whether so many copies are written so.
fn is_count(alloc: Global, copies: Option<u64>, text: &str) -> bool {
    let count = CountText { copies };
    match format!(in alloc; "{count}") {
        Ok(written) => written.as_str() == text,
        Err(_) => false,
    }
}

#[test]
fn counts_are_written(rt: HostRuntime) {
    assert!(rt; is_count(rt.alloc(), Some(0), "0"));
    assert!(rt; is_count(rt.alloc(), None, "undefined"));
}

#[test]
fn answers_are_written(rt: HostRuntime) {
    assert_eq!(rt; answers_with_data(rt.alloc()), Some(6));
    for (answer, text) in [
        (AnswerText::Started(12), "request 12"),
        (AnswerText::Blocked, "blocked"),
        (AnswerText::Refused(51), "refused 51"),
        (
            AnswerText::One(OutcomeText::Null),
            "source any tag any count 0",
        ),
        (AnswerText::IndexUndefined, "index undefined"),
        (AnswerText::All(&[OutcomeText::Sent]), "sent"),
        (AnswerText::All(&[]), "done"),
        (AnswerText::Pending, "pending"),
        (AnswerText::Done, "done"),
        (AnswerText::Taken, "ok"),
    ] {
        assert!(rt; is_written(rt.alloc(), answer, text), "{text}");
    }
}

#[test]
fn answers_about_communicators_are_written(rt: HostRuntime) {
    for (answer, text) in [
        (
            AnswerText::Communicator(CommunicatorText { place: None }),
            "comm null",
        ),
        (
            AnswerText::Communicator(CommunicatorText { place: Some(4095) }),
            "comm 4095",
        ),
        (
            AnswerText::Position(PositionText { rank: 2, size: 256 }),
            "rank 2 of 256",
        ),
        (
            AnswerText::Members(MembersText {
                ranks: &[3, 0, 255],
            }),
            "3 0 255",
        ),
        (AnswerText::Members(MembersText { ranks: &[7] }), "7"),
        (AnswerText::Comparison(ComparisonText::Ident), "ident"),
        (
            AnswerText::Comparison(ComparisonText::Congruent),
            "congruent",
        ),
        (AnswerText::Comparison(ComparisonText::Similar), "similar"),
        (AnswerText::Comparison(ComparisonText::Unequal), "unequal"),
    ] {
        assert!(rt; is_written(rt.alloc(), answer, text), "{text}");
    }
}

/// Whether a datagram of this kind is written so.
fn is_emitted(alloc: Global, kind: FrameKind, text: &str) -> bool {
    let emission = EmissionText {
        datagram: 3,
        route: RouteText {
            source: Endpoint {
                rank: 0,
                incarnation: 1,
            },
            target: Endpoint {
                rank: 2,
                incarnation: 0,
            },
        },
        load: LoadText { kind, sequence: 5 },
    };
    match format!(in alloc; "{emission}") {
        Ok(written) => written.as_str() == text,
        Err(_) => false,
    }
}

#[test]
fn datagrams_are_written(rt: HostRuntime) {
    for (kind, text) in [
        (FrameKind::Eager, "+3 0.1>2.0 EAGER 5"),
        (FrameKind::Rts, "+3 0.1>2.0 RTS 5"),
        (FrameKind::Cts, "+3 0.1>2.0 CTS 5"),
        (FrameKind::Data, "+3 0.1>2.0 DATA 5"),
        (FrameKind::Ack, "+3 0.1>2.0 ACK 5"),
        (FrameKind::Reset, "+3 0.1>2.0 RESET 5"),
    ] {
        assert!(rt; is_emitted(rt.alloc(), kind, text), "{text}");
    }
}

//! The lines of a file of events are read, and a faulty line is named. What each statement does is shown by rows of
//! `mpisim_cases`.

use crate::rows::{Language, first_wrong, is_refused};
use event_files::*;
use std::alloc::Global;
use vocabulary::{BasicType, Source};

/// A line of each kind, between lines that are skipped.
const EVERY_STATEMENT: &str =
    "# all\n\nworld 3\n0 buf a int32 1 2*-5\n  1  isend q world null any a\n2 irecv r self any 7 b1\n0 wait q\n0 wait null\ndeliver 18446744073709551616\ntick 1 20\nstray 70000 00ff\n\nrestart 2\n0 isend q world 1 7 a";

fn is_buffer(statement: &EventStatement) -> bool {
    match statement {
        EventStatement::Rank(0, Action::Buffer(buffer)) => {
            buffer.name.as_bytes() == b"a".as_slice()
                && buffer.value.basic() == BasicType::Int32
                && buffer.value.len() == 3
                && buffer.value.get(2) == Some(4_294_967_291)
        }
        _ => false,
    }
}

fn is_send_to_nobody(statement: &EventStatement) -> bool {
    match statement {
        EventStatement::Rank(1, Action::Isend(request, send)) => {
            request.as_bytes() == b"q".as_slice()
                && matches!(&send.communicator, CommunicatorName::World)
                && send.target == Source::Null
                && send.tag.is_none()
                && send.buffer.as_bytes() == b"a".as_slice()
                && send.through.is_none()
        }
        _ => false,
    }
}

fn is_receive_from_anyone(statement: &EventStatement) -> bool {
    match statement {
        EventStatement::Rank(2, Action::Irecv(request, receive)) => {
            request.as_bytes() == b"r".as_slice()
                && matches!(&receive.communicator, CommunicatorName::Own)
                && receive.source == Source::Any
                && receive.tag == Some(7)
                && receive.buffer.as_bytes() == b"b1".as_slice()
        }
        _ => false,
    }
}

fn is_wait(statement: &EventStatement, named: bool) -> bool {
    match statement {
        EventStatement::Rank(0, Action::Wait(RequestName::Named(_))) => named,
        EventStatement::Rank(0, Action::Wait(RequestName::Null)) => !named,
        _ => false,
    }
}

fn is_stray(statement: &EventStatement) -> bool {
    match statement {
        EventStatement::Stray(u16::MAX, bytes) => bytes.as_slice() == [0, 255].as_slice(),
        _ => false,
    }
}

/// Whether the statement at this place of the row is as the row says.
fn is_as_said(place: usize, statement: &EventStatement) -> bool {
    match place {
        0 => is_buffer(statement),
        1 => is_send_to_nobody(statement),
        2 => is_receive_from_anyone(statement),
        3 => is_wait(statement, true),
        4 => is_wait(statement, false),
        5 => matches!(statement, EventStatement::Deliver(usize::MAX)),
        6 => matches!(statement, EventStatement::Tick(1, 20)),
        7 => is_stray(statement),
        8 => matches!(statement, EventStatement::Restart(2)),
        _ => matches!(statement, EventStatement::Rank(0, Action::Isend(_, _))),
    }
}

/// The sum of the lines' numbers, and how many are as the row says.
fn sum_and_good(lines: &[EventLine]) -> (usize, usize) {
    let mut sum = 0;
    let mut good = 0;
    for (place, line) in lines.iter().enumerate() {
        sum = line.number.saturating_add(sum);
        if is_as_said(place, &line.statement) {
            good = 1_usize.saturating_add(good);
        }
    }
    (sum, good)
}

/// How many ranks the row asks for, how many lines there are, the sum of their numbers, and how many are as the row
/// says.
fn every_statement(alloc: Global) -> Option<(u16, usize, usize, usize)> {
    let EventFile { size, lines } = parse(alloc, EVERY_STATEMENT.as_bytes()).ok()?;
    let (sum, good) = sum_and_good(lines.as_slice());
    let lines = lines.into_vec();
    let count = lines.len();
    drop(lines);
    Some((size, count, sum, good))
}

#[test]
fn every_statement_is_read(rt: HostRuntime) {
    assert_eq!(rt; every_statement(rt.alloc()), Some((3, 10, 87, 10)));
}

/// Rows `NUMBER|TEXT`: the line that the text is faulty at; `;` stands for the end of a line.
const FAULTY: &str = "\
    1|\n\
    2|;\n\
    2|# nothing;\n\
    3|# nothing;#\n\
    1|world 0;\n\
    1|world 1025;\n\
    1|restart 0;\n\
    2|world 2;world 2;\n\
    2|world 2;restart;\n\
    2|world 2;restart 0 1;\n\
    3|world 2;;restart 00;\n\
    2|world 2;restart any;\n\
    2|world 2;restart -1;\n\
    2|world 2;0 restart;\n\
    2|world 2;tick 0;\n\
    2|world 2;tick 0 18446744073709551616;\n\
    2|world 2;stray 0 4;\n\
    2|world 2;stray 0 4F;\n\
    2|world 2;0 buf a uint8 256;\n\
    2|world 2;0 isend q world 1 7 a as int32 1;\n\
    2|world 2;0 count l;\n\
    2|world 2;0 irecv q world 1 x a;restart;";

/// Rows `NUMBER|TEXT` of collectives.
const FAULTY_COLLECTIVES: &str = "\
    2|world 2;0 barrier;\n\
    2|world 2;0 barrier null;\n\
    2|world 2;0 barrier world self;\n\
    2|world 2;0 bcast world 0;\n\
    2|world 2;0 bcast world any a;\n\
    2|world 2;0 bcast world 0 -;\n\
    2|world 2;0 bcast world 0 a b;\n\
    2|world 2;0 gather world 0 a;\n\
    2|world 2;0 gather world 0 - b;\n\
    2|world 2;0 gather world -1 a b;\n\
    2|world 2;0 scatter world 0 a;\n\
    2|world 2;0 scatter world 0 a -;\n\
    2|world 2;0 scatter world 0 -- b;\n\
    2|world 2;0 scatter world 0 null b;\n\
    2|world 2;0 reduce world 0 a b;\n\
    2|world 2;0 reduce world sum 0 a b;\n\
    2|world 2;0 reduce world 0 SUM a b;\n\
    2|world 2;0 reduce world 0 minloc a b;\n\
    2|world 2;0 allreduce world a b;\n\
    2|world 2;0 allreduce world 0 sum a b;\n\
    2|world 2;0 allreduce world null a b;";

/// Rows `NUMBER|TEXT` of communicators.
const FAULTY_COMMUNICATORS: &str = "\
    2|world 2;0 dup d world self;\n\
    2|world 2;0 dup world self;\n\
    2|world 2;0 dup d null;\n\
    2|world 2;0 split d world 0;\n\
    2|world 2;0 split d world 4294967296 0;\n\
    2|world 2;0 split d world -1 0;\n\
    2|world 2;0 split d world any 0;\n\
    2|world 2;0 split d world 0 2147483648;\n\
    2|world 2;0 split d world 0 -2147483649;\n\
    2|world 2;0 split d world 0 undefined;\n\
    2|world 2;0 who;\n\
    2|world 2;0 members world world;\n\
    2|world 2;0 compare world;";

#[test]
fn faulty_lines_answer_their_number(rt: HostRuntime) {
    for rows in [FAULTY, FAULTY_COLLECTIVES, FAULTY_COMMUNICATORS] {
        assert_eq!(rt; first_wrong(rt.alloc(), Language::Events, rows), None);
    }
}

#[test]
fn refused_growths_are_told(rt: HostRuntime) {
    // No memory holds so many elements.
    let text = "world 2\n0 buf a uint64 9223372036854775807*0\n";
    assert!(rt; is_refused(parse(rt.alloc(), text.as_bytes())));
    let text = "world 2\n0 buf a uint64 18446744073709551616*0\n";
    assert!(rt; is_refused(parse(rt.alloc(), text.as_bytes())));
}

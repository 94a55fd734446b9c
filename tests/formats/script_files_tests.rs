//! Each line of a script is read, the lines for a rank are found, and a faulty line is named.

use crate::rows::{Language, faulty_line, first_wrong};
use script_files::*;
use std::alloc::Global;
use vocabulary::Source;

/// Whether so many lines are left, of these numbers in order.
fn are_numbered(lines: &mut RankLines, numbers: &[usize]) -> bool {
    let mut same = lines.len() == numbers.len();
    for number in numbers {
        same = same && number_of(lines.next()) == Some(*number);
    }
    same
}

/// The number of the line, which is dropped.
fn number_of(line: Option<RankLine>) -> Option<usize> {
    let line = line?;
    let number = line.number;
    drop(line);
    Some(number)
}

/// Whether the lines for this rank have these numbers, in order.
fn are_lines_for(
    alloc: Global,
    text: &str,
    rank: u16,
    incarnation: u16,
    numbers: &[usize],
) -> Option<bool> {
    let script = parse(alloc, text.as_bytes()).ok()?;
    let mut lines = script.into_lines_for(alloc, rank, incarnation).ok()?;
    let same = are_numbered(&mut lines, numbers);
    drop(lines);
    Some(same)
}

const FOR_SOME: &str =
    "status\non 0 2.1\nsay a\n\non 1\nsay b\n# c\non all\nsay d\non 70000 1.70000\nfail";

#[test]
fn lines_are_for_their_ranks(rt: HostRuntime) {
    let alloc = rt.alloc();
    assert_eq!(rt;
        [
            are_lines_for(alloc, FOR_SOME, 0, 5, &[1, 3, 9]),
            are_lines_for(alloc, FOR_SOME, 1, 0, &[1, 6, 9]),
            are_lines_for(alloc, FOR_SOME, 2, 0, &[1, 9]),
            are_lines_for(alloc, FOR_SOME, 2, 1, &[1, 3, 9]),
            are_lines_for(alloc, FOR_SOME, 1, 65_535, &[1, 6, 9]),
        ],
        [Some(true); 5]
    );
}

/// A line of each kind.
const EVERY_STATEMENT: &str =
    "buf a uint8 1\nisend q world 1 2 a\nirecv q self any 2 a\nwait q\nsend world null 3 a\nrecv c 4 any a as l 2\nprint a\nstatus\nsay #a b\nfail\ncount l\nwaitall q null\nbarrier world\nallreduce world sum a b";

/// Whether the statement of the line of this number is as the row says.
fn is_as_said(number: usize, statement: &ScriptStatement) -> bool {
    match (number, statement) {
        (1, ScriptStatement::Action(Action::Buffer(_))) => true,
        (2, ScriptStatement::Action(Action::Isend(_, _))) => true,
        (3, ScriptStatement::Action(Action::Irecv(_, _))) => true,
        (4, ScriptStatement::Action(Action::Wait(_))) => true,
        (5, ScriptStatement::Send(send)) => send.target == Source::Null && send.through.is_none(),
        (6, ScriptStatement::Recv(receive)) => {
            matches!(&receive.communicator, CommunicatorName::Named(_)) && receive.through.is_some()
        }
        (7, ScriptStatement::Print(name)) => name.as_bytes() == b"a".as_slice(),
        (8, ScriptStatement::Status) => true,
        (9, ScriptStatement::Say(words)) => words.len() == 2,
        (10, ScriptStatement::Fail) => true,
        (11, ScriptStatement::Count(name)) => name.as_bytes() == b"l".as_slice(),
        (12, ScriptStatement::Action(Action::Waitall(requests))) => requests.as_slice().len() == 2,
        (13, ScriptStatement::Action(Action::Barrier(CommunicatorName::World))) => true,
        (14, ScriptStatement::Action(Action::Allreduce(line))) => line.operation == Operation::Sum,
        _ => false,
    }
}

/// How many of the lines are as the row says.
fn good_lines(lines: &[ScriptLine]) -> usize {
    let mut good = 0;
    for line in lines {
        if let Item::Does(statement) = &line.item {
            if is_as_said(line.number, statement) {
                good = 1_usize.saturating_add(good);
            }
        }
    }
    good
}

/// How many lines are as the row says.
fn every_statement(alloc: Global) -> Option<usize> {
    let script = parse(alloc, EVERY_STATEMENT.as_bytes()).ok()?;
    let good = good_lines(script.lines());
    drop(script);
    Some(good)
}

#[test]
fn every_statement_is_read(rt: HostRuntime) {
    assert_eq!(rt; every_statement(rt.alloc()), Some(14));
}

/// Rows `NUMBER|TEXT`: the line that the text is faulty at; `;` stands for the end of a line.
const FAULTY: &str = "\
    1|on;\n\
    1|on all 1;\n\
    1|on 1.;\n\
    1|on .1;\n\
    1|on 1.2.3;\n\
    1|on 01;\n\
    1|say;\n\
    1|status a;\n\
    2|;fail 5;\n\
    1|print;\n\
    1|print a b;\n\
    1|print world;\n\
    1|send world 1 2;\n\
    1|recv world 1 2 a b;\n\
    1|0 wait q;\n\
    1|count;\n\
    1|count int8;\n\
    1|count l m;\n\
    1|send world 1 2 a as l;\n\
    1|barrier;\n\
    1|bcast world 0 world;\n\
    1|scatter world 0 - -;\n\
    1|fail\t;\n\
    1|#\ta;\n\
    1|fail\r;";

#[test]
fn faulty_lines_answer_their_number(rt: HostRuntime) {
    assert_eq!(rt; first_wrong(rt.alloc(), Language::Script, FAULTY), None);
    assert_eq!(rt; faulty_line(rt.alloc(), Language::Script, b""), None);
}

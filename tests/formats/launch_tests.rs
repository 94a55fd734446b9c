//! Worked rows of the launcher's words: tables whose rows one helper tries.

use launch_keeper::{After, Keeper, Word, Words, join};
use launch_plan::planning::plan;
use launch_plan::{Plan, config_name};
use std::alloc::Global;
use std::process::Abort;

fn add_word(alloc: Global, words: &mut Vec<Word>, bytes: &[u8]) -> Option<()> {
    words.push(Word::from_slice(alloc, bytes).ok()?).ok()
}

/// The words of a line, apart by single spaces. Two spaces in a row have an empty word between them.
fn words(alloc: Global, line: &str) -> Option<Vec<Word>> {
    let mut words = Vec::new(alloc);
    if !line.is_empty() {
        for word in line.split(' ') {
            add_word(alloc, &mut words, word.as_bytes())?;
        }
    }
    Some(words)
}

fn planned(alloc: Global, line: &str, config: Option<&[u8]>) -> Option<Plan> {
    plan(alloc, &words(alloc, line)?, config).ok()
}

/// The number of the refusal, or 0 for a plan.
fn outcome(alloc: Global, line: &str, config: Option<&[u8]>) -> Option<u8> {
    match plan(alloc, &words(alloc, line)?, config) {
        Ok(_) => Some(0),
        Err(refused) => Some(refused.number()),
    }
}

fn assert_outcome(rt: &impl Abort, alloc: Global, line: &str, config: Option<&[u8]>, want: u8) {
    assert_eq!(rt;
        outcome(alloc, line, config),
        Some(want),
        "{line}: {config:?}"
    );
}

/// Whether the row `NUMBER|LINE` tells the line's outcome.
fn is_right(alloc: Global, row: &str) -> Option<bool> {
    let (want, line) = row.split_once('|')?;
    Some(outcome(alloc, line, None)? == want.parse::<u8>().ok()?)
}

/// The first row that tells another outcome than its line has.
fn first_wrong(alloc: Global, rows: &str) -> Option<&str> {
    for row in rows.lines() {
        if is_right(alloc, row) != Some(true) {
            return Some(row);
        }
    }
    None
}

/// Rows `NUMBER|LINE`: the number of the line's refusal, or 0 for a plan.
const LINES: &str = "\
    52|\n\
    52|-n 1 a :\n\
    53|-x\n\
    54|-n 0 a\n\
    55|echo hi\n\
    56|-n 2\n\
    57|-n 1000 a : -n 25 b\n\
    58|-n 1 -host h a\n\
    0|-job 0 -n 1 a\n\
    0|-job 18446744073709551615 -n 1 a\n\
    54|-job 18446744073709551616 -n 1 a\n\
    54|-job 99999999999999999999 -n 1 a\n\
    54|-job 00 -n 1 a\n\
    54|-job 01 -n 1 a\n\
    54|-job +1 -n 1 a\n\
    54|-job  -n 1 a\n\
    54|-job x -n 1 a\n\
    54|-job\n\
    54|-job -n 1 a\n\
    54|-baseport 0 -n 1 a\n\
    0|-baseport 1 -n 1 a\n\
    0|-baseport 65535 -n 1 a\n\
    54|-baseport 65536 -n 1 a\n\
    0|-restart 0 -n 1 a\n\
    0|-restart 65535 -n 1 a\n\
    54|-restart 65536 -n 1 a\n\
    54|-patience 0 -n 1 a\n\
    0|-patience 1 -n 1 a\n\
    0|-patience 3600000 -n 1 a\n\
    54|-patience 3600001 -n 1 a\n\
    0|-n 1 a\n\
    0|-n 1024 a\n\
    54|-n 1025 a\n\
    54|-n 01 a\n\
    54|-n 00000000000000000001 a\n\
    54|-n -1 a\n\
    54|-n\n\
    0|-patience 5 -restart 2 -baseport 100 -job 9 -n 1 a\n\
    53|-job 1 -job 2 -n 1 a\n\
    53|-job 1 -job\n\
    53|-job 1 -job x -n 1 a\n\
    53|-patience 1 -restart 1 -patience 1 -n 1 a\n\
    53|-n 1 -job 1 a\n\
    53|-n 1 a : -job 1 -n 1 b\n\
    53|-n 1 -n 1 a\n\
    53|-n 1 -configfile f\n\
    53|-n 1 a : -configfile f\n\
    53|-\n\
    53|-n 1 -\n\
    53|-n 1 --rank a\n\
    58|-soft 1 -n 1 a\n\
    58|-n 1 -wdir d a\n\
    58|-n 1 a : -path p b\n\
    58|-arch\n\
    58|-job 1 -file f\n\
    0|-n 1 a -host h -n x -y\n\
    55|a -n 1\n\
    55| a\n\
    0|-n 1 \n\
    0|-n 1 a  b\n\
    52|:\n\
    52|: -n 1 a\n\
    52|-job 5 :\n\
    52|-job 5\n\
    52|-n 1 a : : -n 1 b\n\
    54|-n :\n\
    54|-n : 1 a\n\
    56|-n 1 :\n\
    56|-n 1 : a\n\
    55|-n 1 a : b\n\
    0|-n 1 a :b\n\
    57|-n 1024 a : -n 1 b\n\
    56|-n 1024 a : -n 1\n\
    53|-n 1000 a : -n 25 b : -x\n\
    57|-baseport 65535 -n 2 a\n\
    0|-baseport 65534 -n 1 a : -n 1 b\n\
    57|-baseport 65534 -n 1 a : -n 2 b\n\
    57|-baseport 65000 -n 600 a\n\
    0|-baseport 64512 -n 1024 a\n\
    57|-baseport 64513 -n 1024 a";

#[test]
fn lines_have_their_outcomes(rt: HostRuntime) {
    assert_eq!(rt; first_wrong(rt.alloc(), LINES), None);
}

#[test]
fn words_round_a_file(rt: HostRuntime) {
    let good: Option<&[u8]> = Some(b"-n 1 a\n");
    let bad: Option<&[u8]> = Some(b"a\n");
    let full: Option<&[u8]> = Some(b"-n 1024 a\n-n 1 b\n");
    for (line, config, want) in [
        ("-configfile", good, 54),
        ("-configfile f", None, 59),
        ("-configfile f x", None, 59),
        ("-configfile f", good, 0),
        ("-configfile f x", good, 53),
        ("-configfile f -job 1", good, 53),
        ("-configfile f x", bad, 55),
        ("-configfile f", full, 57),
        ("-configfile f x", full, 53),
        ("-configfile :", good, 0),
        ("-configfile -n", good, 0),
        ("-job -configfile f", good, 54),
        ("-job 1 -configfile f", good, 0),
        ("-baseport 65535 -configfile f", good, 0),
    ] {
        assert_outcome(&rt, rt.alloc(), line, config, want);
    }
}

#[test]
fn files_have_their_outcomes(rt: HostRuntime) {
    let rows: [(&[u8], u8); 25] = [
        (b"", 52),
        (b"\n \t\n", 52),
        (b"# only\n", 52),
        (b"#\\\n", 52),
        (b"# c \\\n-n 1 a\n", 0),
        (b"-n 1 a \\", 0),
        (b"-n 1 \\", 56),
        (b"-n 1\t\ta \tb\n", 0),
        (b" # x\n", 55),
        (b"-n 1 a : -n 1 b\n", 53),
        (b"-n 1 a :\n", 53),
        (b"-n :\n", 54),
        (b"-n 1 :\n", 53),
        (b":\n", 53),
        (b"-job 1\n", 53),
        (b"-configfile g\n", 53),
        (b"-host h\n", 58),
        (b"-n 1 a\n-n 2\n", 56),
        (b"-n 1 a \\\r\n b", 55),
        (b"-n 1 \xff\xfe\n", 0),
        (b"-n 1025 a\n", 54),
        (b"-n 1024 a\n-n 1 b\n", 57),
        (b"\\\n-n 1 a", 0),
        (b"-n 1 \\\n\\\na", 0),
        (b"-n 1\\\n# a\n", 0),
    ];
    for (file, want) in rows {
        assert_outcome(&rt, rt.alloc(), "-configfile f", Some(file), want);
    }
}

/// Appends the words of a rank in one line, apart by spaces.
fn append_line(line: &mut Vec<u8>, words: &Words) -> Option<()> {
    for word in words.as_slice() {
        if !line.is_empty() {
            line.push(b' ').ok()?;
        }
        line.extend_from_slice(word.as_bytes()).ok()?;
    }
    Some(())
}

/// The words of a rank in one line; nothing for a rank that the plan lacks.
fn line_of(alloc: Global, plan: &Plan, rank: u16, inc: u16) -> Option<Vec<u8>> {
    let mut line = Vec::new(alloc);
    if let Some(words) = plan.words(alloc, rank, inc).ok()? {
        append_line(&mut line, &words)?;
    }
    Some(line)
}

/// The words of a rank at an incarnation, in one line.
fn line_planned(
    alloc: Global,
    line: &str,
    config: Option<&[u8]>,
    at: (u16, u16),
) -> Option<Vec<u8>> {
    line_of(alloc, &planned(alloc, line, config)?, at.0, at.1)
}

/// Whether these are the words of the rank at the incarnation.
fn has_words(
    alloc: Global,
    line: &str,
    config: Option<&[u8]>,
    at: (u16, u16),
    want: &[u8],
) -> bool {
    match line_planned(alloc, line, config, at) {
        Some(found) => found.as_slice() == want,
        None => false,
    }
}

/// The words of ranks of lines: the line, the rank and its incarnation, and its words, of which a rank that the plan
/// lacks has none.
const RANKS_OF_LINES: [(&str, (u16, u16), &str); 4] = [
    (
        "-job 5 -n 1 echo hi : -n 1 echo ho",
        (0, 0),
        "echo --rank 0 --size 2 --inc 0 --job 5 --port 47000 hi",
    ),
    (
        "-job 5 -n 1 echo hi : -n 1 echo ho",
        (1, 0),
        "echo --rank 1 --size 2 --inc 0 --job 5 --port 47001 ho",
    ),
    ("-job 5 -n 1 echo hi : -n 1 echo ho", (2, 0), ""),
    (
        "-restart 3 -patience 250 -baseport 100 -n 2 run x  y",
        (1, 65_535),
        "run --rank 1 --size 2 --inc 65535 --job 1 --port 101 --patience 250 x  y",
    ),
];

#[test]
fn ranks_of_lines_have_their_words(rt: HostRuntime) {
    for (line, at, want) in RANKS_OF_LINES {
        assert!(rt;
            has_words(rt.alloc(), line, None, at, want.as_bytes()),
            "{line}: {at:?}"
        );
    }
}

/// A configuration file of two sets.
const TWO_SETS: &[u8] = b"# two sets\n-n 1 echo \\\na b\n-n 2 echo c\n";

/// The words of ranks of configuration files: what the file holds, the rank, and its words.
const RANKS_OF_FILES: [(&[u8], u16, &[u8]); 8] = [
    (
        TWO_SETS,
        0,
        b"echo --rank 0 --size 3 --inc 0 --job 1 --port 47000 a b",
    ),
    (
        TWO_SETS,
        1,
        b"echo --rank 1 --size 3 --inc 0 --job 1 --port 47001 c",
    ),
    (
        TWO_SETS,
        2,
        b"echo --rank 2 --size 3 --inc 0 --job 1 --port 47002 c",
    ),
    (TWO_SETS, 3, b""),
    (
        b"-n 1 \xff \xfe\r\n",
        0,
        b"\xff --rank 0 --size 1 --inc 0 --job 1 --port 47000 \xfe\r",
    ),
    (
        b"-n 1\\\n# a\n",
        0,
        b"# --rank 0 --size 1 --inc 0 --job 1 --port 47000 a",
    ),
    (
        b"-n 1 a\\\\\n b\n",
        0,
        b"a\\ --rank 0 --size 1 --inc 0 --job 1 --port 47000 b",
    ),
    (
        b"-n 1 a b\\",
        0,
        b"a --rank 0 --size 1 --inc 0 --job 1 --port 47000 b",
    ),
];

#[test]
fn ranks_of_files_have_their_words(rt: HostRuntime) {
    for (file, rank, want) in RANKS_OF_FILES {
        let holds = has_words(rt.alloc(), "-configfile f", Some(file), (rank, 0), want);
        assert!(rt; holds, "{file:?}: {rank}");
    }
}

/// The size, job, restarts, first port and patience of a plan.
fn told(alloc: Global, line: &str) -> Option<(u16, u64, u16, u16, Option<u32>)> {
    let plan = planned(alloc, line, None)?;
    Some((
        plan.size(),
        plan.job(),
        plan.restarts(),
        plan.base_port(),
        plan.patience(),
    ))
}

#[test]
fn plans_tell_what_was_asked_for(rt: HostRuntime) {
    assert_eq!(rt;
        told(
            rt.alloc(),
            "-restart 3 -patience 250 -baseport 100 -n 2 run x  y"
        ),
        Some((2, 1, 3, 100, Some(250)))
    );
}

fn assert_name(rt: &impl Abort, alloc: Global, line: &str, want: &[u8]) {
    match words(alloc, line) {
        Some(words) => assert_eq!(rt; config_name(&words).unwrap_or(b""), want, "{line}"),
        None => assert!(rt; false),
    }
}

#[test]
fn files_have_their_names(rt: HostRuntime) {
    let rows: [(&str, &[u8]); 8] = [
        ("-configfile sets.txt", b"sets.txt"),
        ("-job 1 -configfile sets.txt x", b"sets.txt"),
        ("-configfile :", b":"),
        ("-configfile", b""),
        ("-job 0x -configfile f", b""),
        ("-job 1 -job 1 -configfile f", b""),
        ("-n 1 -configfile f", b""),
        ("", b""),
    ];
    for (line, want) in rows {
        assert_name(&rt, rt.alloc(), line, want);
    }
}

fn joined(alloc: Global, first: &[u8], second: &[u8]) -> Option<Vec<u8>> {
    let mut outputs = Vec::new(alloc);
    outputs.push(first.to_vec(alloc).ok()?).ok()?;
    outputs.push(second.to_vec(alloc).ok()?).ok()?;
    join(alloc, &outputs).ok()
}

fn assert_joined(rt: &impl Abort, alloc: Global, first: &[u8], second: &[u8], want: &[u8]) {
    match joined(alloc, first, second) {
        Some(text) => assert_eq!(rt; text.as_slice(), want),
        None => assert!(rt; false),
    }
}

#[test]
fn outputs_are_joined(rt: HostRuntime) {
    let rows: [(&[u8], &[u8], &[u8]); 5] = [
        (b"a\nb", b"", b"[0] a\n[0] b\n"),
        (b"", b"", b""),
        (b"\n", b"x\n", b"[0] \n[1] x\n"),
        (b"a\n\nb\n", b"", b"[0] a\n[0] \n[0] b\n"),
        (b"", b"c", b"[1] c\n"),
    ];
    for (first, second, want) in rows {
        assert_joined(&rt, rt.alloc(), first, second, want);
    }
}

#[test]
fn keepers(rt: HostRuntime) {
    for (allowed, status, used, want) in [
        (0, 1, 0, After::End(1)),
        (1, 5, 0, After::Again(1)),
        (1, 5, 1, After::End(5)),
        (2, 0, 0, After::End(0)),
        (65_535, 128, 65_534, After::Again(65_535)),
        (65_535, 127, 65_535, After::End(127)),
    ] {
        assert_eq!(rt; Keeper::new(allowed).after(status, used), want, "at {used}");
    }
}

/// Whether a new list is empty, how many words it has after one, and the bytes of another word.
fn listed(alloc: Global) -> Option<(bool, usize, usize)> {
    let mut words = Words::new(alloc);
    let empty = words.is_empty();
    words.push(Word::from_vec(b"one".to_vec(alloc).ok()?)).ok()?;
    let bytes = Word::from_slice(alloc, b"two").ok()?.into_vec();
    Some((empty, words.len(), bytes.len()))
}

#[test]
fn lists_of_words(rt: HostRuntime) {
    assert_eq!(rt; listed(rt.alloc()), Some((true, 1, 3)));
}

//! What the launcher tells on the standard error: the word at fault, and the lines.

use launch_diagnostics::{explain, fault_place};
use launch_keeper::{
    After, EndingLine, LostKeeperLine, ProgramEnding, TakenPortsLine, UnstartedKeeperLine, Word,
};
use shown_words::Shown;
use std::alloc::Global;

/// The words of a line, apart by single spaces.
fn words(alloc: Global, line: &str) -> Option<Vec<Word>> {
    let mut words = Vec::new(alloc);
    if !line.is_empty() {
        for word in line.split(' ') {
            let word = Word::from_slice(alloc, word.as_bytes()).ok()?;
            words.push(word).ok()?;
        }
    }
    Some(words)
}

/// The number of the refusal of a line, and how many words stand in front of the fault.
fn fault(alloc: Global, line: &str, config: Option<&[u8]>) -> Option<(u8, usize)> {
    let fault = fault_place(alloc, &words(alloc, line)?, config)?;
    Some((fault.refused.number(), fault.place))
}

/// What is told of a line behind the refusal's number; nothing of words without a fault.
fn told(alloc: Global, line: &str, config: Option<&[u8]>) -> Option<String> {
    match explain(alloc, &words(alloc, line)?, config) {
        Some(told) => format!(in alloc; "{told}").ok(),
        None => Some(String::new(alloc)),
    }
}

#[test]
fn words_at_fault(rt: HostRuntime) {
    for (line, want) in [
        ("", (52, 0)),
        ("-job 5", (52, 2)),
        (":", (52, 0)),
        ("-n 1 a :", (52, 4)),
        ("-n 1 a -configfile :", (52, 5)),
        ("-n 1 a : : b", (52, 4)),
        ("-x", (53, 0)),
        ("-job 1 -job 2 -n 1 a", (53, 2)),
        ("-n 1 -job 1 a", (53, 2)),
        ("-n 0 a", (54, 1)),
        ("-n", (54, 1)),
        ("-job -n 1 a", (54, 1)),
        ("-n 1 a : -n 0 b", (54, 5)),
        ("-n 1 a : -n", (54, 5)),
        ("-configfile", (54, 1)),
        ("a -n 1", (55, 0)),
        ("-n 1 a : b", (55, 4)),
        ("-n 2", (56, 2)),
        ("-n 1 : a", (56, 2)),
        ("-n 1000 a : -n 25 b c", (57, 6)),
        ("-n 1 -host h a", (58, 2)),
    ] {
        assert_eq!(rt; fault(rt.alloc(), line, None), Some(want), "{line}");
    }
}

#[test]
fn words_at_fault_round_a_file(rt: HostRuntime) {
    let rows: [(&str, Option<&[u8]>, (u8, usize)); 7] = [
        ("-job 1 -configfile f x", None, (59, 3)),
        ("-configfile f x", Some(b"-n 1 a\n"), (53, 2)),
        ("-configfile f", Some(b"# none\n"), (52, 1)),
        ("-configfile f x", Some(b"-n 1 :\n"), (53, 1)),
        ("-configfile f x", Some(b"-n 0 a\n"), (54, 1)),
        ("-configfile f x", Some(b"a\n"), (55, 1)),
        ("-configfile f x", Some(b"-n 1 a\n-n 2\n"), (56, 1)),
    ];
    for (line, config, want) in rows {
        assert_eq!(rt; fault(rt.alloc(), line, config), Some(want), "{line}");
    }
}

#[test]
fn what_may_stand_there(rt: HostRuntime) {
    let rows = [
        ("-n 1 a", ""),
        ("-n 1 :", "mpiexec: ':': a program may stand here"),
        ("-n 2", "mpiexec: behind '2' a program is missing"),
        (
            "-n 1 a :",
            "mpiexec: behind ':' a set (-n N PROGRAM ..) is missing",
        ),
        (
            "-restart x",
            "mpiexec: 'x': a number from 0 to 65535 may stand here",
        ),
        ("-configfile f", "mpiexec: 'f' can't be read"),
    ];
    for (line, want) in rows {
        let found = told(rt.alloc(), line, None);
        assert_eq!(rt; found.as_deref(), Some(want), "{line}");
    }
}

#[test]
fn lines_of_keepers(rt: HostRuntime) {
    let alloc = rt.alloc();
    let line = |program, ending, after| {
        let line = EndingLine {
            rank: 3,
            program,
            ending,
            after,
        };
        format!(in alloc; "{line}").ok()
    };
    let patient = line(b"bin/rank_main", ProgramEnding::Status(4), After::Again(1));
    let other = line(b"brank_main", ProgramEnding::Status(4), After::End(4));
    let killed = line(b"rank_main", ProgramEnding::Signal(9), After::End(128));
    let absent = line(b"./no\tne", ProgramEnding::NotStarted, After::End(127));
    assert_eq!(rt;
        patient.as_deref(),
        Some("mpiexec: rank 3 ended with status 4 (patience); started again as incarnation 1")
    );
    assert_eq!(rt;
        other.as_deref(),
        Some("mpiexec: rank 3 ended with status 4")
    );
    assert_eq!(rt;
        killed.as_deref(),
        Some("mpiexec: rank 3 was ended by signal 9")
    );
    assert_eq!(rt;
        absent.as_deref(),
        Some("mpiexec: rank 3: ./no?ne can't be started")
    );
    assert!(rt; ProgramEnding::Signal(9).is_failure() && !ProgramEnding::Status(0).is_failure());
}

#[test]
fn lines_of_the_launcher(rt: HostRuntime) {
    let alloc = rt.alloc();
    let lost = LostKeeperLine { rank: 2 };
    let unstarted = UnstartedKeeperLine { rank: 508 };
    let taken = TakenPortsLine { base_port: 47_000 };
    assert_eq!(rt;
        format!(in alloc; "{lost}").ok().as_deref(),
        Some("mpiexec: the keeper of rank 2 ended before its report")
    );
    assert_eq!(rt;
        format!(in alloc; "{unstarted}").ok().as_deref(),
        Some(
            "mpiexec: the keeper of rank 508 can't be started; it takes two more open files (ulimit -n)"
        )
    );
    assert_eq!(rt;
        format!(in alloc; "{taken}").ok().as_deref(),
        Some(
            "mpiexec: another job may use the ports from 47000 on: give each job its own -baseport and -job"
        )
    );
    let whole = Shown { word: &[97; 80] };
    let long = Shown { word: &[97; 81] };
    let cut = format!(in alloc; "{whole} ..");
    assert_eq!(rt; format!(in alloc; "{long}").ok(), cut.ok());
}

//! Why lines are faulty, and what is told of them.

use line_diagnostics::{
    LineFault, event_fault, explanation, gave_up_at, gave_up_behind, line_at, script_fault,
};
use std::alloc::{AllocError, Global};
use std::str;

/// A row `REASON|LINE`.
fn is_told(alloc: Global, fault: Result<LineFault, AllocError>, reason: &str, line: &str) -> bool {
    let Ok(fault) = fault else {
        return false;
    };
    let wanted = match format!(in alloc; "me: {reason}: {line}") {
        Ok(wanted) => wanted,
        Err(_) => return false,
    };
    match explanation(alloc, b"me", &fault, line.as_bytes()) {
        Ok(told) => told.as_slice() == wanted.as_bytes(),
        Err(_) => false,
    }
}

/// Rows of lines of scripts, and why they are faulty.
const SCRIPT: &str = "\
    no such statement|sya hi\n\
    no such statement|world 1\n\
    no such statement|0 buf a int8 1\n\
    no such statement|Say hi\n\
    a value outside its type|buf a int8 128\n\
    a value outside its type|buf a int8 -129\n\
    a value outside its type|buf a uint8 1 3*-1 2\n\
    a value outside its type|buf a uint64 18446744073709551616\n\
    a value outside its type|split c world 4294967296 0\n\
    a value outside its type|split c world undefined 2147483648\n\
    words that don't fit the statement|buf a int8 one\n\
    words that don't fit the statement|buf a int8 007\n\
    words that don't fit the statement|buf a int7 128\n\
    words that don't fit the statement|split c world 4294967295\n\
    words that don't fit the statement|send world 1 7\n\
    words that don't fit the statement|say\n\
    words that don't fit the statement|on";

/// Rows of lines of files of events.
const EVENTS: &str = "\
    no such statement|0 print a\n\
    no such statement|0 sya\n\
    no such statement|print a\n\
    no such statement|one buf a int8 1\n\
    a value outside its type|0 buf a int8 128\n\
    a value outside its type|tick 0 18446744073709551616\n\
    words that don't fit the statement|0\n\
    words that don't fit the statement|0 buf a\n\
    words that don't fit the statement|world 300\n\
    words that don't fit the statement|tick 0\n\
    words that don't fit the statement|tick 0 18446744073709551615 1\n\
    words that don't fit the statement|stray 0 abc";

/// The first row of a script's line that is told otherwise.
fn first_wrong_script(alloc: Global) -> Option<&'static str> {
    for row in SCRIPT.lines() {
        let (reason, line) = row.split_once('|')?;
        if !is_told(alloc, script_fault(alloc, line.as_bytes()), reason, line) {
            return Some(row);
        }
    }
    None
}

/// The first row of a line of a file of events that is told otherwise.
fn first_wrong_event(alloc: Global) -> Option<&'static str> {
    for row in EVENTS.lines() {
        let (reason, line) = row.split_once('|')?;
        if !is_told(alloc, event_fault(alloc, line.as_bytes()), reason, line) {
            return Some(row);
        }
    }
    None
}

#[test]
fn lines_are_told_why_they_are_faulty(rt: HostRuntime) {
    assert_eq!(rt; first_wrong_script(rt.alloc()), None);
    assert_eq!(rt; first_wrong_event(rt.alloc()), None);
}

/// What is told of a line of a script.
fn told(alloc: Global, line: &[u8]) -> Option<Vec<u8>> {
    let fault = script_fault(alloc, line).ok()?;
    explanation(alloc, b"me", &fault, line).ok()
}

/// Whether this is told of a line of a script.
fn tells(alloc: Global, line: &[u8], wanted: &str) -> bool {
    match told(alloc, line) {
        Some(told) => str::from_utf8(&told).ok() == Some(wanted),
        None => false,
    }
}

#[test]
fn bytes_are_judged_first(rt: HostRuntime) {
    let alloc = rt.alloc();
    assert!(rt;
        tells(
            alloc,
            b"sya\thi",
            "me: a byte that isn't printable ASCII: sya?hi"
        )
    );
    assert!(rt;
        tells(
            alloc,
            b"say hi\r",
            "me: a byte that isn't printable ASCII: say hi?"
        )
    );
    assert!(rt;
        tells(
            alloc,
            b"# \x7f\xc3",
            "me: a byte that isn't printable ASCII: # ??"
        )
    );
    assert!(rt;
        tells(
            alloc,
            b"say \xc3\xbc\t",
            "me: a byte that isn't ASCII: say ???"
        )
    );
}

/// Whether the line of this number of three lines is this.
fn is_line(alloc: Global, number: usize, wanted: Option<&[u8]>) -> bool {
    line_at(alloc, b"a\n\nb c", number).ok() == Some(wanted)
}

#[test]
fn lines_are_found_by_their_numbers(rt: HostRuntime) {
    let alloc = rt.alloc();
    assert!(rt; is_line(alloc, 0, None));
    assert!(rt; is_line(alloc, 1, Some(b"a".as_slice())));
    assert!(rt; is_line(alloc, 2, Some(b"".as_slice())));
    assert!(rt; is_line(alloc, 3, Some(b"b c".as_slice())));
    assert!(rt; is_line(alloc, 4, None));
}

/// The text of bytes that are told.
fn is_text(told: Result<Vec<u8>, AllocError>, wanted: &str) -> bool {
    match told {
        Ok(told) => told.as_slice() == wanted.as_bytes(),
        Err(_) => false,
    }
}

#[test]
fn long_lines_are_cut(rt: HostRuntime) {
    let alloc = rt.alloc();
    let eighty = [b'x'; 80];
    let more = [b'x'; 81];
    let row = "xxxxxxxxxxxxxxxxxxxxxxxxxxxxxxxxxxxxxxxxxxxxxxxxxxxxxxxxxxxxxxxxxxxxxxxxxxxxxxxx";
    let whole = gave_up_at(alloc, b"me", 10, 7, &eighty);
    let cut = gave_up_at(alloc, b"me", 10, 7, &more);
    if let Ok(wanted) = format!(in alloc; "me gave up after 10 ms at line 7: {row}") {
        assert!(rt; is_text(whole, wanted.as_str()));
    }
    if let Ok(wanted) = format!(in alloc; "me gave up after 10 ms at line 7: {row} ..") {
        assert!(rt; is_text(cut, wanted.as_str()));
    }
    assert!(rt;
        is_text(
            gave_up_behind(alloc, b"me", 500),
            "me gave up after 500 ms behind the end of its script: what it sent is not all acknowledged",
        )
    );
}

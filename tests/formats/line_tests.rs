//! The lines of a text, and what their words stand for.

use crate::rows::is_read;
use statements::action_of;
use std::alloc::Global;
use tokens::*;
use vocabulary::BasicType;

/// How many lines a text has, and how many words in all the lines that aren't skipped.
fn counts(alloc: Global, text: &str) -> Option<(usize, usize)> {
    let lines = lines_of(alloc, text.as_bytes()).ok()?;
    let mut count: usize = 0;
    for line in &lines {
        count = count.saturating_add(word_count(alloc, line)?);
    }
    Some((lines.len(), count))
}

fn word_count(alloc: Global, line: &[u8]) -> Option<usize> {
    match said_in(alloc, line) {
        Ok(Some(words)) => Some(words.len()),
        Ok(None) => Some(0),
        Err(_) => None,
    }
}

#[test]
fn lines_and_words_are_counted(rt: HostRuntime) {
    for (text, counted) in [
        ("", (0, 0)),
        ("\n", (1, 0)),
        ("a", (1, 1)),
        ("a\n", (1, 1)),
        (" a  b \n\n", (2, 2)),
        ("#a b\n # b\na#", (3, 1)),
    ] {
        assert_eq!(rt; counts(rt.alloc(), text), Some(counted), "{text}");
    }
    assert_eq!(rt; counts(rt.alloc(), "a\tb"), None);
}

fn is_name(alloc: Global, word: &str) -> bool {
    match name_of(alloc, word.as_bytes()) {
        Ok(name) => is_copied(alloc, &name),
        Err(_) => false,
    }
}

fn is_copied(alloc: Global, name: &Name) -> bool {
    match name.try_clone(alloc) {
        Ok(copy) => copy.is(name) && copy.as_bytes() == name.as_bytes(),
        Err(_) => false,
    }
}

/// Names, apart by single spaces.
const NAMES: &str = "a a1 abcdefghijklmnop any all int";

/// Words that are no names, apart by single spaces. The first is empty.
const OTHER_WORDS: &str = " 1a aB a_b abcdefghijklmnopq world self null int16 byte";

#[test]
fn names_are_told_from_other_words(rt: HostRuntime) {
    for word in NAMES.split(' ') {
        assert!(rt; is_name(rt.alloc(), word), "{word}");
    }
    for word in OTHER_WORDS.split(' ') {
        assert!(rt; !is_name(rt.alloc(), word), "{word}");
    }
}

#[test]
fn numbers_are_read(rt: HostRuntime) {
    assert_eq!(rt;
        [
            number_or(b"4294967303", 4_294_967_295),
            number_or(b"07", 9),
            number_up_to(b"256", 256),
            number_up_to(b"257", 256),
            number_up_to(b"18446744073709551616", u64::MAX),
            large_of(b"18446744073709551616").ok(),
            numeral_of(b"12").ok(),
        ],
        [
            Some(4_294_967_295),
            None,
            Some(256),
            None,
            None,
            Some(u64::MAX),
            Some(12),
        ]
    );
    assert_eq!(rt; rank_of(b"70000").ok(), Some(65_535));
    assert_eq!(rt; basic_type_of(b"uint16"), Some(BasicType::Uint16));
    assert!(rt; is(b"a", b"a"));
}

/// Whether the words spell something that a rank does.
fn is_spelled(alloc: Global, line: &str) -> Option<bool> {
    let words = said_in(alloc, line.as_bytes()).ok()??;
    Some(is_read(action_of(alloc, words.as_slice())))
}

/// Whether the words of the row `+ WORDS` spell something that a rank does, or those of `- WORDS` nothing.
fn is_right(alloc: Global, row: &str) -> Option<bool> {
    let (mark, line) = row.split_once(' ')?;
    Some(is_spelled(alloc, line)? == (mark == "+"))
}

/// The first row that tells something else of its words.
fn first_wrong(alloc: Global, rows: &str) -> Option<&str> {
    for row in rows.lines() {
        if is_right(alloc, row) != Some(true) {
            return Some(row);
        }
    }
    None
}

/// Rows `+ WORDS` of lines that set buffers, and `- WORDS` of lines that are none.
const BUFFERS: &str = "\
    + buf a int8\n\
    + buf a int8 -128 -0 3*127\n\
    - buf a int8 128\n\
    - buf a int8 -129\n\
    - buf a uint8 -1\n\
    - buf a uint8 01\n\
    - buf a uint8 2*3*4\n\
    - buf int8 int8 1";

/// Rows of sends and receives.
const SENDS_AND_RECEIVES: &str = "\
    + isend q c 99999999999999999999 99999999999999999999 a\n\
    - isend null world 1 1 a\n\
    - isend q null 1 1 a\n\
    - isend q world any 1 a\n\
    + irecv q world null any a\n\
    - irecv q world 1 null a\n\
    + isend q world 1 7 a as l 1\n\
    - isend q world 1 7 a as int32 3\n\
    - isend q world 1 7 a as l\n\
    - isend q world 1 7 a as l 1 2\n\
    - isend q world 1 7 a as l -0\n\
    - isend q world 1 7 a is l 1\n\
    - irecv q world 1 7 a as null 1\n\
    - irecv q world 1 7 as l 1";

/// Rows of synchronous sends, of probes, and of messages that were taken out.
const PROBES: &str = "\
    + issend q world 1 7 a as l 1\n\
    - issend q world any 7 a\n\
    - ssend world 1 7 a\n\
    + iprobe world any any\n\
    + iprobe self null 99999999999999999999\n\
    - iprobe m world any any\n\
    - iprobe world any\n\
    - iprobe null any any\n\
    + improbe m c 1 any\n\
    - improbe world any any\n\
    - improbe world world any any\n\
    - improbe null world any any\n\
    + mrecv m a\n\
    + mrecv m m as m 2\n\
    - mrecv m\n\
    - mrecv null a\n\
    - mrecv m a as l\n\
    - mrecv m a b\n\
    - mprobe m world any any";

/// Rows of completions.
const COMPLETIONS: &str = "\
    + wait null\n\
    - wait\n\
    - wait q q\n\
    - Wait q\n\
    - test\n\
    + test null\n\
    - test q q\n\
    + cancel q\n\
    - cancel world\n\
    + waitany\n\
    + waitany q null q\n\
    + waitall\n\
    - waitall q int8\n\
    - waitsome q";

/// Rows of collectives.
const COLLECTIVES: &str = "\
    + barrier world\n\
    - barrier\n\
    - ibarrier world\n\
    + bcast c 99999999999999999999 a\n\
    - bcast c -1 a\n\
    + gather self 0 a a\n\
    - gather self 0 - a\n\
    + scatter self 0 - a\n\
    - scatter self 0 a -\n\
    + reduce world 0 lxor sum max\n\
    - reduce world 0 xor sum max\n\
    + allreduce world affine a b\n\
    - allreduce world 0 affine a b";

/// Rows of layouts.
const LAYOUTS: &str = "\
    + type l contiguous 3 byte\n\
    + type l contiguous 3 l\n\
    - type l contiguous 3\n\
    - type l contiguous -1 byte\n\
    - type l contiguous 03 byte\n\
    - type l contiguous 3 world\n\
    - type byte contiguous 3 byte\n\
    + type l vector 1 2 3 byte\n\
    - type l vector 1 2 byte\n\
    - type l vector 1 2 3 4 byte\n\
    + type l indexed byte\n\
    - type l indexed\n\
    - type l indexed 1:2\n\
    + type l indexed 1:2 3:4 l\n\
    - type l indexed 1: l\n\
    - type l indexed :1 l\n\
    - type l indexed 1:2:3 l\n\
    - type l indexed 12 l\n\
    - type l struct byte\n\
    - type l";

#[test]
fn lines_are_told_from_other_lines(rt: HostRuntime) {
    for rows in [
        BUFFERS,
        SENDS_AND_RECEIVES,
        PROBES,
        COMPLETIONS,
        COLLECTIVES,
        LAYOUTS,
    ] {
        assert_eq!(rt; first_wrong(rt.alloc(), rows), None);
    }
}

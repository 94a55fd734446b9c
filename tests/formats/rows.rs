//! What rows of texts ask of what was read.

use std::alloc::Global;
use tokens::{LineError, ParseError};

/// The line that the text was found faulty at. What was read of it is dropped.
fn line_of_fault<T: Drop>(read: Result<T, ParseError>) -> Option<usize> {
    match read {
        Err(ParseError::Line(line)) => Some(line),
        _ => None,
    }
}

/// Whether memory was refused for the text. What was read of it is dropped.
pub(crate) fn is_refused<T: Drop>(read: Result<T, ParseError>) -> bool {
    match read {
        Err(ParseError::OutOfMemory) => true,
        _ => false,
    }
}

/// Whether the words were read. What they spell is dropped.
pub(crate) fn is_read<T: Drop>(read: Result<T, LineError>) -> bool {
    match read {
        Ok(_) => true,
        Err(_) => false,
    }
}

/// The text that a row stands for: `;` stands for the end of a line.
fn text_of(alloc: Global, row: &str) -> Option<Vec<u8>> {
    let mut text = Vec::new(alloc);
    for byte in row.as_bytes() {
        text.push(if *byte == b';' { b'\n' } else { *byte }).ok()?;
    }
    Some(text)
}

/// What a text is in.
#[derive(Clone, Copy)]
pub(crate) enum Language {
    /// A file of events.
    Events,
    /// A script.
    Script,
}

/// The line that the text is faulty at.
pub(crate) fn faulty_line(alloc: Global, language: Language, text: &[u8]) -> Option<usize> {
    match language {
        Language::Events => line_of_fault(event_files::parse(alloc, text)),
        Language::Script => line_of_fault(script_files::parse(alloc, text)),
    }
}

/// Whether the text of the row `NUMBER|TEXT` is faulty at the line of that number.
fn is_faulty_there(alloc: Global, language: Language, row: &str) -> Option<bool> {
    let (number, text) = row.split_once('|')?;
    let number = number.parse::<usize>().ok()?;
    let text = text_of(alloc, text)?;
    Some(faulty_line(alloc, language, &text) == Some(number))
}

/// The first row whose text isn't faulty at the line of its number.
pub(crate) fn first_wrong(alloc: Global, language: Language, rows: &str) -> Option<&str> {
    for row in rows.lines() {
        if is_faulty_there(alloc, language, row) != Some(true) {
            return Some(row);
        }
    }
    None
}

//! What names stand for in a table.

use script_calls::Table;
use std::alloc::{AllocError, Global};
use std::hash::{BuildHasher, BuildHasherDefault, FoldHasher};
use tokens::Name;

fn name(alloc: Global, word: &str) -> Result<Name, AllocError> {
    Name::from_slice(alloc, word.as_bytes())
}

/// Sets each of these names to its value, in turn.
fn table_of(alloc: Global, rows: &[(&str, usize)]) -> Result<Table<usize>, AllocError> {
    let mut table = Table::new(alloc);
    for row in rows {
        table.set(&name(alloc, row.0)?, row.1)?;
    }
    Ok(table)
}

fn value_of(alloc: Global, table: &Table<usize>, word: &str) -> Result<Option<usize>, AllocError> {
    let name = name(alloc, word)?;
    Ok(table.get(&name).copied())
}

fn values_of(
    alloc: Global,
    rows: &[(&str, usize)],
    words: [&str; 3],
) -> Result<[Option<usize>; 3], AllocError> {
    let table = table_of(alloc, rows)?;
    Ok([
        value_of(alloc, &table, words[0])?,
        value_of(alloc, &table, words[1])?,
        value_of(alloc, &table, words[2])?,
    ])
}

#[test]
fn name_stands_for_what_was_set_last(rt: HostRuntime) {
    let rows = [("a", 1), ("b", 2), ("a", 3)];
    assert_eq!(rt;
        values_of(rt.alloc(), &rows, ["a", "b", "c"]),
        Ok([Some(3), Some(2), None])
    );
    assert_eq!(rt; values_of(rt.alloc(), &[], ["a", "b", "c"]), Ok([None; 3]));
}

/// What a name stood for, and what it stands for once another value has taken that one's place.
fn replaced(alloc: Global, word: &str) -> Result<[Option<usize>; 2], AllocError> {
    let mut table = table_of(alloc, &[("a", 1), ("b", 2)])?;
    let before = table.replace(&name(alloc, word)?, 5);
    Ok([before, value_of(alloc, &table, word)?])
}

#[test]
fn value_takes_the_place_of_another(rt: HostRuntime) {
    assert_eq!(rt; replaced(rt.alloc(), "b"), Ok([Some(2), Some(5)]));
    assert_eq!(rt; replaced(rt.alloc(), "c"), Ok([None, None]));
}

/// What a table goes by when it looks for a name.
fn hash_of(word: &str) -> u32 {
    let hash = BuildHasherDefault::<FoldHasher>::new().hash_one(word.as_bytes());
    ((hash ^ (hash >> 32)) & 0xFFFF_FFFF) as u32
}

#[test]
fn names_of_one_hash_are_told_apart(rt: HostRuntime) {
    assert_eq!(rt; hash_of("areq"), hash_of("bugu"));
    assert_eq!(rt;
        values_of(rt.alloc(), &[("areq", 1)], ["areq", "bugu", "areq"]),
        Ok([Some(1), None, Some(1)])
    );
    let rows = [("areq", 1), ("bugu", 2)];
    assert_eq!(rt;
        values_of(rt.alloc(), &rows, ["areq", "bugu", "a"]),
        Ok([Some(1), Some(2), None])
    );
}

fn numbered(alloc: Global, number: usize) -> Result<Name, AllocError> {
    Name::from_slice(alloc, format!(in alloc; "n{number}")?.as_bytes())
}

/// Whether each of so many names stands for its number once all are set.
fn are_all_found(alloc: Global, count: usize) -> Result<bool, AllocError> {
    let mut table = Table::new(alloc);
    for number in 0..count {
        table.set(&numbered(alloc, number)?, number)?;
    }
    let mut found = true;
    for number in 0..count {
        let name = numbered(alloc, number)?;
        found = found && table.get(&name).copied() == Some(number);
    }
    Ok(found)
}

#[test]
fn thousands_of_names_are_each_found(rt: HostRuntime) {
    assert_eq!(rt; are_all_found(rt.alloc(), 4_000), Ok(true));
}

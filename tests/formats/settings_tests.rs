//! The words of a rank.

use rank_settings::{SettingsRefusal, settings_of};
use std::alloc::Global;
use std::process::Abort;

/// The numbers that the words give: rank, size, incarnation, job, port and patience; or the number of the refusal.
fn numbers(alloc: Global, words: &[&str]) -> Result<(u16, u16, u16, u64, u16, u64), u8> {
    match settings_of(alloc, words) {
        Ok(s) => Ok((s.rank, s.size, s.incarnation, s.job, s.port, s.patience)),
        Err(refused) => Err(refused.number()),
    }
}

#[test]
fn words_give_settings(rt: HostRuntime) {
    let words = [
        "rank_main",
        "--rank",
        "1",
        "--size",
        "2",
        "--inc",
        "3",
        "--job",
        "4",
        "--port",
        "47001",
        "file",
    ];
    assert_eq!(rt;
        numbers(rt.alloc(), words.as_slice()),
        Ok((1, 2, 3, 4, 47_001, 10_000))
    );
    let words = [
        "rank_main",
        "file",
        "--patience",
        "3600000",
        "--port",
        "65535",
        "--job",
        "18446744073709551615",
        "--inc",
        "65535",
        "--size",
        "1024",
        "--rank",
        "1023",
    ];
    assert_eq!(rt;
        numbers(rt.alloc(), words.as_slice()),
        Ok((1023, 1024, 65_535, u64::MAX, 65_535, 3_600_000))
    );
}

fn assert_refused(rt: &impl Abort, alloc: Global, rank: &str, size: &str, port: &str, more: &str) {
    let words = [
        "rank_main",
        "--rank",
        rank,
        "--size",
        size,
        "--inc",
        "0",
        "--job",
        "0",
        "--port",
        port,
        more,
    ];
    assert_eq!(rt;
        numbers(alloc, words.as_slice()),
        Err(64),
        "{rank} {size} {port} {more}"
    );
}

#[test]
fn wrong_words_are_refused(rt: HostRuntime) {
    let alloc = rt.alloc();
    assert_eq!(rt; numbers(alloc, ["rank_main"].as_slice()), Err(64));
    assert_refused(&rt, alloc, "2", "2", "47000", "file");
    assert_refused(&rt, alloc, "0", "0", "47000", "file");
    assert_refused(&rt, alloc, "0", "1025", "47000", "file");
    assert_refused(&rt, alloc, "0", "1", "0", "file");
    assert_refused(&rt, alloc, "0", "1", "65536", "file");
    assert_refused(&rt, alloc, "0", "2", "65535", "file");
    assert_refused(&rt, alloc, "1", "2", "1", "file");
    assert_refused(&rt, alloc, "00", "1", "47000", "file");
    assert_refused(&rt, alloc, "+0", "1", "47000", "file");
    assert_refused(&rt, alloc, "0", "1", "47000", "--patience");
    assert_eq!(rt; SettingsRefusal::OutOfMemory.number(), 14);
}

//! A transport in memory behind which another rank runs.

use datagram::Bytes;
use engine::{Completion, Engine, Place, Reply};
use event_loop::{Rank, Runner, RunnerStep, Transport, TransportFault};
use script_files::parse;
use script_runner::ScriptRunner;
use std::alloc::Global;
use std::collections::VecDeque;
use std::mem;
use vocabulary::{Endpoint, MessageLimit};

/// The script of two ranks that play ping-pong.
pub const PING_PONG: &[u8] =
    b"on 0\nbuf a int32 1\nsend world 1 1 a\nrecv world 1 2 a\nprint a\non 1\nbuf b int32 0\nrecv world 0 1 b\nbuf c int32 2\nsend world 0 2 c\nprint b\n";

/// A script of two ranks in which elements go by collectives: all kinds but those that make communicators.
pub const COLLECTIVES: &[u8] =
    b"on 0\nbuf all int32 1 2 3 4\non all\nbuf own int32 0 0\nscatter world 0 all own\nprint own\nallreduce world sum own sums\nprint sums\nreduce world 0 prod own products\ngather world 0 own back\non 0\nprint products\nprint back\non all\nbcast world 1 own\nprint own\nbcast world 2 own\nbarrier world\nsay done\n";

/// One of two ranks.
pub fn place_of_two(rank: u16) -> Place {
    Place {
        endpoint: Endpoint {
            rank,
            incarnation: 0,
        },
        size: 2,
        job: 1,
        message_limit: MessageLimit::least(),
    }
}

/// The runner of a script for a rank.
fn runner_of(alloc: Global, text: &[u8], rank: u16) -> Option<ScriptRunner> {
    let script = parse(alloc, text).ok()?;
    ScriptRunner::new(alloc, script, rank, 0).ok()
}

/// Both, if both are here.
// In code for every type a drop is one step of a proof; that of an engine or a runner takes each of its types in turn.
fn both<A: Drop, B: Drop>(one: Option<A>, other: Option<B>) -> Option<(A, B)> {
    match (one, other) {
        (Some(one), Some(other)) => Some((one, other)),
        _ => None,
    }
}

/// A rank of a script, at its start.
pub fn rank_of(alloc: Global, text: &[u8], rank: u16) -> Option<Rank<ScriptRunner>> {
    let runner = runner_of(alloc, text, rank);
    let engine = Engine::new(alloc, place_of_two(rank)).ok();
    match both(engine, runner) {
        Some((engine, runner)) => Some(Rank::new(engine, runner)),
        None => None,
    }
}

/// A transport of rank 0 behind which rank 1 runs, and which fails from its call of a given number on.
#[derive(Drop)]
pub struct Pair {
    rank: Rank<ScriptRunner>,
    /// What the runner is told next, if it may go on.
    told: Option<Option<Reply>>,
    /// What rank 1 has sent.
    to_us: VecDeque<Bytes>,
    /// Whether what rank 1 sends comes.
    answers: bool,
    /// Whether rank 0 was given an acknowledgement of its frame 0.
    acknowledged: bool,
    /// Whether it was given the frame 0 of rank 1.
    came: bool,
    /// What rank 0 has printed, each line with its end.
    printed: Vec<u8>,
    /// How many calls there were.
    calls: u64,
    /// From which call on it fails.
    fails_at: u64,
    /// How often it has failed.
    failures: u64,
}

/// A pair whose rank 1 runs this script and answers, or doesn't, and which fails from its call of this number on.
pub fn new_pair(alloc: Global, text: &[u8], fails_at: u64, answers: bool) -> Option<Pair> {
    match rank_of(alloc, text, 1) {
        Some(rank) => Some(Pair {
            rank,
            told: Some(None),
            to_us: VecDeque::new(alloc),
            answers,
            acknowledged: false,
            came: false,
            printed: Vec::new(alloc),
            calls: 0,
            fails_at,
            failures: 0,
        }),
        None => None,
    }
}

/// What the runner is told of this answer of a blocked call.
fn reply_of(completion: Completion) -> Reply {
    match completion {
        Completion::Requests(answer) => Reply::Done(answer),
        Completion::Collective(ending) => Reply::Left(ending),
    }
}

/// What the runner is told once this answer of a blocked call, or none, has come.
fn told_with(told: Option<Option<Reply>>, completion: Option<Completion>) -> Option<Option<Reply>> {
    let Some(completion) = completion else {
        return told;
    };
    drop(told);
    Some(Some(reply_of(completion)))
}

/// What the runner is told of a reply at once, unless its call is blocked.
fn told_unless_blocked(reply: Reply) -> Option<Option<Reply>> {
    match reply {
        Reply::Blocked => None,
        reply => Some(Some(reply)),
    }
}

/// What the runner is told after its step, if it may go on.
fn told_after(engine: &mut Engine, step: RunnerStep) -> Option<Option<Reply>> {
    match step {
        RunnerStep::Call(call) => told_unless_blocked(engine.call(call)),
        RunnerStep::Print(line) => {
            drop(line);
            Some(None)
        }
        RunnerStep::End(_, _) => None,
    }
}

impl Pair {
    /// How many calls there were, and how many of them failed.
    pub fn counts(&self) -> (u64, u64) {
        (self.calls, self.failures)
    }

    /// Whether rank 0 was given an acknowledgement of its frame 0, and whether the frame 0 of rank 1.
    pub fn given(&self) -> (bool, bool) {
        (self.acknowledged, self.came)
    }

    /// Whether rank 0 has printed these lines, each with its end, and no other.
    pub fn has_printed(&self, lines: &[u8]) -> bool {
        self.printed.as_slice() == lines
    }

    fn fail(&mut self) -> TransportFault
    {
        self.failures += 1;
        TransportFault
    }

    /// Counts a call. Answers whether it fails.
    fn is_faulty(&mut self) -> bool
    {
        self.calls = self.calls.saturating_add(1);
        self.calls >= self.fails_at
    }

    /// This is what the runner is told next.
    fn tell(&mut self, told: Option<Option<Reply>>)
    {
        drop(mem::replace(&mut self.told, told));
    }

    /// Rank 1 does what comes next, if it may go on.
    fn go_on(&mut self)
    {
        let told = told_with(self.told.take(), self.rank.engine.take_completion());
        if let Some(reply) = told {
            let step = self.rank.runner.next(reply);
            let told = told_after(&mut self.rank.engine, step);
            self.tell(told);
        }
    }

    /// Rank 0 is given this datagram: byte 5 is its kind, and byte 31 the lowest one of its number.
    fn note(&mut self, bytes: &[u8])
    {
        match (bytes.get(5), bytes.get(31)) {
            (Some(1), Some(0)) => self.came = true,
            (Some(2), Some(number)) if *number > 0 => self.acknowledged = true,
            _ => {}
        }
    }

    /// What rank 1 has emitted comes, if it answers.
    fn hand_over(&mut self)
    {
        let mut out = self.rank.engine.take_out();
        if self.answers {
            take_bytes(&mut self.to_us, &mut out);
        }
        drop(out);
    }
}

/// Moves the datagrams, in order.
fn take_bytes(to_us: &mut VecDeque<Bytes>, out: &mut Vec<(u16, Bytes)>) {
    for (_, bytes) in out.drain(..) {
        let _ = to_us.push_back(bytes);
    }
}

/// Copies as many bytes as fit to the front of the buffer, and answers how many.
fn put(buffer: &mut [u8], bytes: &[u8]) -> usize {
    let len = buffer.len().min(bytes.len());
    buffer[..len].copy_from_slice(&bytes[..len]);
    len
}

impl Transport for Pair {

    ghost passed = { λ _ _ _. Unit {0} };

    ghost failed = { λ t. t.failures };

    ghost waits = { λ _. [] };

    fn receive(&mut self, buffer: &mut [u8]) -> Result<Option<usize>, TransportFault> {
        if self.is_faulty() {
            return Err(self.fail());
        }
        self.go_on();
        self.hand_over();
        match self.to_us.pop_front() {
            Some(bytes) => {
                self.note(bytes.as_slice());
                Ok(Some(put(buffer, bytes.as_slice())))
            }
            None => Ok(None),
        }
    }

    fn send(&mut self, _target: u16, bytes: &[u8]) -> Result<(), TransportFault> {
        if self.is_faulty() {
            return Err(self.fail());
        }
        let _ = self.rank.engine.on_datagram(bytes);
        Ok(())
    }

    fn print(&mut self, line: &[u8]) -> Result<(), TransportFault> {
        if self.is_faulty() {
            return Err(self.fail());
        }
        let _ = self.printed.extend_from_slice(line);
        let _ = self.printed.push(b'\n');
        Ok(())
    }

    fn wait(&mut self, _most: u64) -> Result<(), TransportFault> {
        if self.is_faulty() {
            return Err(self.fail());
        }
        Ok(())
    }

    fn wait_of(&self, _rank: u16) -> Option<u64> {
        None
    }

    fn failures(&self) -> u64 {
        self.failures
    }

    ghost none = { λ _. tt };

    ghost joined = { λ _ _ _ _ _ _ _. tt };
}

//! Small random worlds: three threads take turns at three registers.

use rand_core::Rng;
use rand_xoshiro::Xoshiro256PlusPlus;
use std::alloc::{AllocError, Global};

/// How many threads there are, and as many registers.
pub(crate) const THREADS: usize = 3;

/// How many steps a thread has at most.
pub(crate) const STEPS: usize = 3;

/// A step of a thread. It waits until its register is odd or even, where it has to be, and then changes it.
#[derive(Clone, Copy, Debug)]
struct Step {
    register: usize,
    needs: Option<u8>,
    factor: u8,
    added: u8,
}

/// How many steps each thread has taken, and what the registers hold.
#[derive(Clone, Copy, Debug, PartialEq, Eq)]
pub(crate) struct State {
    taken: [usize; THREADS],
    registers: [u8; THREADS],
}

/// The steps of the threads, one thread behind the other; `None` where a thread has fewer.
#[derive(Drop)]
pub(crate) struct World {
    steps: Vec<Option<Step>>,
}

impl Step {
    fn drawn(random: &mut Xoshiro256PlusPlus) -> Option<Step> {
        let bits = random.next_u64();
        if bits % 8 == 0 {
            return None;
        }
        Some(Step {
            register: ((bits >> 8) % 3) as usize,
            needs: match (bits >> 16) % 8 {
                0 => Some(0),
                1 => Some(1),
                _ => None,
            },
            factor: ((bits >> 24) % 4) as u8,
            added: ((bits >> 32) % 5) as u8,
        })
    }
}

impl State {
    pub(crate) fn start() -> State {
        State {
            taken: [0; THREADS],
            registers: [0; THREADS],
        }
    }

    fn taken_by(&self, thread: usize) -> usize {
        self.taken.get(thread).copied().unwrap_or(STEPS)
    }

    fn register(&self, register: usize) -> u8 {
        self.registers.get(register).copied().unwrap_or(0)
    }

    fn allows(&self, step: Step) -> bool {
        match step.needs {
            Some(rest) => self.register(step.register) % 2 == rest,
            None => true,
        }
    }
}

/// The name of a step: the same on each way.
fn name_of(thread: usize, place: usize) -> u64 {
    (thread as u64).wrapping_mul(16).wrapping_add(place as u64)
}

impl World {
    pub(crate) fn drawn(
        alloc: Global,
        random: &mut Xoshiro256PlusPlus,
    ) -> Result<World, AllocError> {
        let mut steps = Vec::new(alloc);
        for _ in 0..9 {
            steps.push(Step::drawn(random)).map_err(AllocError::from)?;
        }
        Ok(World { steps })
    }

    /// The step of this name.
    fn named(&self, name: u64) -> Option<Step> {
        let place = (name / 16).wrapping_mul(3).wrapping_add(name % 16);
        match self.steps.get(place as usize) {
            Some(step) => *step,
            None => None,
        }
    }

    /// Which steps may be taken in this state.
    pub(crate) fn moves(&self, alloc: Global, state: &State) -> Result<Vec<u64>, AllocError> {
        let mut moves = Vec::new(alloc);
        for thread in 0..THREADS {
            let place = state.taken_by(thread);
            if place < STEPS {
                let name = name_of(thread, place);
                if let Some(step) = self.named(name) {
                    if state.allows(step) {
                        moves.push(name)?;
                    }
                }
            }
        }
        Ok(moves)
    }

    /// Whether it may matter which of these two steps comes first: they are of one thread, or at one register.
    pub(crate) fn clash(&self, one: u64, other: u64) -> bool {
        match (self.named(one), self.named(other)) {
            (Some(first), Some(second)) => {
                one / 16 == other / 16 || first.register == second.register
            }
            _ => true,
        }
    }

    /// The state behind this step.
    pub(crate) fn after(&self, state: &State, name: u64) -> State {
        let mut next = *state;
        if let Some(step) = self.named(name) {
            if let Some(taken) = next.taken.get_mut((name / 16) as usize) {
                *taken = taken.saturating_add(1);
            }
            if let Some(register) = next.registers.get_mut(step.register) {
                *register = register.wrapping_mul(step.factor).wrapping_add(step.added);
            }
        }
        next
    }
}

//! Small random ranks that send one another frames: each has a row of states.

use rand_core::Rng;
use rand_xoshiro::Xoshiro256PlusPlus;
use state_visits::{Behind, Flight, Happening, Question};
use std::alloc::{AllocError, Global};

/// How many ranks there are.
pub(crate) const RANKS: usize = 3;

/// How many states each rank has.
const STATES: usize = 4;

/// How many different frames there are.
const FRAMES: usize = 2;

/// A frame that is sent.
#[derive(Clone, Copy, Debug, PartialEq, Eq)]
pub(crate) struct Sent {
    pub(crate) target: usize,
    pub(crate) frame: usize,
}

/// What comes of what happens at a rank: its state, and a frame that it sends, if it does.
#[derive(Clone, Copy, Debug)]
pub(crate) struct Came {
    pub(crate) state: usize,
    pub(crate) sent: Option<Sent>,
}

/// What the ranks do in each of their states, by its number: when they go on, and when each of the frames comes.
#[derive(Drop)]
pub(crate) struct Ranks {
    goes: Vec<Option<Came>>,
    comes: Vec<Option<Came>>,
}

fn below(random: &mut Xoshiro256PlusPlus, most: u64) -> usize {
    random.next_u64().checked_rem(most).unwrap_or(0) as usize
}

fn drawn_sent(random: &mut Xoshiro256PlusPlus) -> Option<Sent> {
    if below(random, 3) == 0 {
        return None;
    }
    Some(Sent {
        target: below(random, RANKS as u64),
        frame: below(random, FRAMES as u64),
    })
}

/// What comes in this of the states of a rank: a later one, or nothing can happen.
fn drawn_came(random: &mut Xoshiro256PlusPlus, rank: usize, step: usize) -> Option<Came> {
    if step.wrapping_add(1) >= STATES || below(random, 4) == 0 {
        return None;
    }
    let next = step.wrapping_add(1).wrapping_add(below(random, 2));
    Some(Came {
        state: opening(rank).wrapping_add(next.min(STATES - 1)),
        sent: drawn_sent(random),
    })
}

/// The state in which a rank begins.
pub(crate) fn opening(rank: usize) -> usize {
    rank.wrapping_mul(STATES)
}

impl Ranks {
    pub(crate) fn drawn(
        alloc: Global,
        random: &mut Xoshiro256PlusPlus,
    ) -> Result<Ranks, AllocError> {
        let mut goes = Vec::new(alloc);
        let mut comes = Vec::new(alloc);
        for rank in 0..RANKS {
            for step in 0..STATES {
                goes.push(drawn_came(random, rank, step))?;
                for _ in 0..FRAMES {
                    comes.push(drawn_came(random, rank, step))?;
                }
            }
        }
        Ok(Ranks { goes, comes })
    }

    /// What comes of what happens in this state.
    pub(crate) fn step(&self, state: usize, happening: Happening) -> Option<Came> {
        match happening {
            Happening::Goes => *self.goes.get(state)?,
            Happening::Comes(frame) => {
                *self
                    .comes
                    .get(state.wrapping_mul(FRAMES).wrapping_add(frame))?
            }
        }
    }

    /// The same as it is told to visits.
    pub(crate) fn answer(
        &self,
        alloc: Global,
        question: Question,
    ) -> Result<Option<Behind>, AllocError> {
        let Some(came) = self.step(question.state, question.happening) else {
            return Ok(None);
        };
        let mut sent = Vec::new(alloc);
        if let Some(one) = came.sent {
            let source = question.state / STATES;
            sent.push(Flight {
                link: source.wrapping_mul(RANKS).wrapping_add(one.target),
                target: one.target,
                frame: one.frame,
            })?;
        }
        Ok(Some(Behind {
            state: came.state,
            sent,
        }))
    }
}

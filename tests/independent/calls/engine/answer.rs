//! What the calls answer: the structs of reach.h, for the engine and for the library behind it.

use super::memory::State;
use crate::file::Refusal;

/// Of loading, updating and closing.
#[repr(C)]
#[derive(Clone, Copy, Debug, PartialEq)]
pub struct Step {
    /// 0 where the call was done.
    pub refusal: u32,
    pub detail: u32,
    pub state: State,
}

impl Step {
    pub fn done(state: State) -> Step {
        Step { refusal: 0, detail: 0, state }
    }

    /// The state comes back as it was passed.
    pub fn refused(refusal: Refusal, state: State) -> Step {
        Step { refusal: refusal.number, detail: refusal.detail, state }
    }
}

/// A number, since the library could answer any.
#[repr(transparent)]
#[derive(Clone, Copy, Debug, PartialEq, Eq)]
pub struct Outcome(pub u32);

impl Outcome {
    pub const REFUSED: Outcome = Outcome(0);
    pub const FINISHED: Outcome = Outcome(1);
    pub const SPENT: Outcome = Outcome(2);
    pub const FULL: Outcome = Outcome(3);
}

#[repr(C)]
#[derive(Clone, Copy, Debug, PartialEq)]
pub struct Ran {
    pub refusal: u32,
    pub detail: u32,
    pub state: State,
    pub outcome: Outcome,
    /// Updates made.
    pub updates: u64,
}

impl Ran {
    pub fn refused(refusal: Refusal, state: State) -> Ran {
        Ran { refusal: refusal.number, detail: refusal.detail, state, outcome: Outcome::REFUSED, updates: 0 }
    }
}

/// A refusal that names nothing.
pub fn plain(number: u32) -> Refusal {
    Refusal { number, detail: 0 }
}

/// Of weight so far.
#[repr(C)]
#[derive(Clone, Copy, Debug, PartialEq)]
pub struct Weighed {
    pub refusal: u32,
    pub detail: u32,
    pub weight: u64,
}

/// Of weight given evidence.
#[repr(C)]
#[derive(Clone, Copy, Debug, PartialEq)]
pub struct Shared {
    pub refusal: u32,
    pub detail: u32,
    pub both: u64,
    pub evidence: u64,
}

#[repr(C)]
#[derive(Clone, Copy, Debug, PartialEq)]
pub struct Listed {
    pub refusal: u32,
    pub detail: u32,
    /// Bytes written.
    pub length: u64,
}

//! A call, what is lent for it, and what it answers.

use crate::calls::engine::answer::{Listed, Ran, Shared, Step, Weighed};
use crate::calls::engine::memory::{Lent, State};

#[derive(Clone, Copy, Debug, PartialEq)]
pub enum Call {
    Load,
    Update(u32),
    Close,
    Run(u64),
    Weight(u32),
    /// The evidence lies in the memory.
    Given(u32),
    Listing(u32),
}

impl Call {
    pub fn name(&self) -> &'static str {
        match self {
            Call::Load => "load",
            Call::Update(_) => "update",
            Call::Close => "close",
            Call::Run(_) => "run",
            Call::Weight(_) => "weight",
            Call::Given(_) => "given",
            Call::Listing(_) => "listing",
        }
    }
}

/// All that a host lends or passes. A call that does not take an array must leave it as it is all the more.
#[derive(Clone, Debug, PartialEq)]
pub struct Memory {
    pub file: Vec<u8>,
    pub lent: Lent,
    pub state: State,
    pub evidence: Vec<u16>,
    pub numbers: Vec<u64>,
    pub out: Vec<u8>,
}

#[derive(Clone, Copy, Debug, PartialEq)]
pub enum Answer {
    Step(Step),
    Ran(Ran),
    Weighed(Weighed),
    Shared(Shared),
    Listed(Listed),
}

impl Answer {
    pub fn refusal(&self) -> u32 {
        match self {
            Answer::Step(step) => step.refusal,
            Answer::Ran(ran) => ran.refusal,
            Answer::Weighed(weighed) => weighed.refusal,
            Answer::Shared(shared) => shared.refusal,
            Answer::Listed(listed) => listed.refusal,
        }
    }

    /// Questions give none.
    pub fn state(&self) -> Option<State> {
        match self {
            Answer::Step(Step { state, .. }) | Answer::Ran(Ran { state, .. }) => Some(*state),
            _ => None,
        }
    }
}

/// Who makes the calls. An error is a fault that no answer shows, as writing outside of what was lent.
pub trait Side {
    fn call(&self, call: Call, memory: &mut Memory) -> Result<Answer, String>;
}

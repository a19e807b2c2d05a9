//! The mutants that nothing has shown yet, and where the others showed first.

use super::corpus::Ask;
use super::judge::Expected;
use super::mutant::{self, Mutant};
use super::side::Side;
use super::stand_in::StandIn;
use std::panic::{catch_unwind, AssertUnwindSafe};

pub struct Watch {
    pub hidden: Vec<Mutant>,
    pub shown: Vec<(Mutant, String)>,
}

impl Watch {
    pub fn new() -> Watch {
        Watch { hidden: mutant::all(), shown: Vec::new() }
    }

    /// A mutant that falls over shows nothing: only a difference does.
    pub fn look(&mut self, ask: &Ask, expected: &Expected, before: &[u8], place: impl Fn() -> String) {
        let wrong = |mutant: &Mutant| {
            let judged = || answered(&StandIn(*mutant), ask, expected, before);
            catch_unwind(AssertUnwindSafe(judged)).is_ok_and(|judged| judged.is_err())
        };
        let (shown, hidden): (Vec<Mutant>, Vec<Mutant>) = self.hidden.iter().partition(|mutant| wrong(mutant));
        self.hidden = hidden;
        self.shown.extend(shown.into_iter().map(|mutant| (mutant, place())));
    }
}

/// One call, judged.
pub fn answered(side: &dyn Side, ask: &Ask, expected: &Expected, before: &[u8]) -> Result<(), String> {
    let mut out = before.to_vec();
    let listed = side.layers(&ask.file, &mut out)?;
    expected.judge(&listed, before, &out)
}

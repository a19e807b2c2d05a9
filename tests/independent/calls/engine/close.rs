//! Closing, and the check that it rests on.

use super::answer::{plain, Step};
use super::calls::Engine;
use super::layers;
use super::memory::{Lent, State, FINISHED};
use super::mutant::Mutant;
use super::store::{Check, Store};
use crate::file::Refusal;
use crate::support::program::Program;

impl Engine {
    pub fn close(&self, file: &[u8], lent: &mut Lent, state: State) -> Step {
        self.try_close(file, lent, state).map_or_else(|refusal| Step::refused(refusal, state), Step::done)
    }

    fn try_close(&self, file: &[u8], lent: &mut Lent, state: State) -> Result<State, Refusal> {
        let (program, mut store) = self.opened(file, lent, state)?;
        if state.finished() {
            return if self.is(Mutant::FinishedClosesAgain) { Ok(state) } else { Err(plain(16)) };
        }
        self.settled(&program, &mut store, state.layer)?;
        // This changes nothing, since the honest check did not; one mutant's check did.
        store.write(lent);
        Ok(State { layer: self.next_layer(&program, state.layer), nodes: store.nodes() as u32 })
    }

    pub fn next_layer(&self, program: &Program, layer: u32) -> u32 {
        let next = layers::above(program, layer);
        if self.is(Mutant::NextNumber) && next != FINISHED {
            return layer + 1;
        }
        next
    }

    /// The first atom that stops the check, and 12 before 15 at that atom.
    pub fn settled(&self, program: &Program, store: &mut Store, layer: u32) -> Result<(), Refusal> {
        let stops = self.stops(program, store, layer);
        let stop = match self.mutant {
            Mutant::LastStopNamed => stops.last(),
            Mutant::FullAnywhereFirst => stops.iter().find(|(_, check)| check.full).or(stops.first()),
            Mutant::NothingChecked => None,
            Mutant::OnlyFirstChecked => stops.first().filter(|(atom, _)| *atom == layers::atoms(program, layer)[0]),
            Mutant::FullUnseenInClosing => stops.iter().find(|(_, check)| check.changed),
            _ => stops.first(),
        };
        let Some((atom, check)) = stop else { return Ok(()) };
        let unsettled_first = self.is(Mutant::FifteenBeforeTwelve) && check.changed;
        if check.full && !unsettled_first && !self.is(Mutant::FullUnseenInClosing) {
            let detail = if self.is(Mutant::FullNamesAtom) { *atom as u32 } else { 0 };
            return Err(Refusal { number: 12, detail });
        }
        let uncounted = if self.is(Mutant::UnsettledWithoutFacts) { program.facts.len() } else { 0 };
        Err(Refusal { number: 15, detail: (atom - uncounted) as u32 })
    }

    /// All atoms that would stop the check, each looked at from the store as it stood.
    fn stops(&self, program: &Program, store: &mut Store, layer: u32) -> Vec<(usize, Check)> {
        let before = store.nodes();
        let mut stops = Vec::new();
        for atom in layers::atoms(program, layer) {
            let check = store.check(program, atom);
            if check.full || check.changed {
                stops.push((atom, check));
            }
            if self.is(Mutant::ChecksPileUp) || self.is(Mutant::CheckStays) {
                let _ = store.build(program, atom);
            }
        }
        if self.is(Mutant::ChecksPileUp) {
            store.truncate(before);
        }
        stops
    }
}

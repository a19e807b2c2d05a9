//! Loading and updating, and what every later call starts with.

use super::answer::{plain, Step};
use super::diagrams::Diagrams;
use super::fit::fitting;
use super::form::Form;
use super::layers;
use super::memory::{Lent, State, FINISHED, PLACES};
use super::mutant::Mutant;
use super::store::{Full, Store};
use super::tables::{self, Tables};
use crate::file::{decode, Refusal};
use crate::support::program::Program;

/// Which form functions take.
#[derive(Clone, Copy, Debug, PartialEq)]
pub enum Forms {
    /// Tables where they reach.
    Mixed,
    Diagrams,
}

#[derive(Clone, Copy)]
pub struct Engine {
    pub forms: Forms,
    pub mutant: Mutant,
}

impl Engine {
    pub const HONEST: Engine = Engine { forms: Forms::Mixed, mutant: Mutant::None };

    pub fn is(&self, mutant: Mutant) -> bool {
        self.mutant == mutant
    }

    fn store(&self, program: &Program, lent: &Lent) -> Store {
        let facts = program.facts.len();
        let form: Box<dyn Form> = match self.forms {
            Forms::Mixed if facts <= tables::REACH => Box::new(Tables::new(facts)),
            _ => Box::new(Diagrams::default()),
        };
        Store::new(program, self.size(lent), form, self.mutant)
    }

    fn size(&self, lent: &Lent) -> usize {
        if self.is(Mutant::LongStoreUsed) {
            lent.words.len()
        } else {
            lent.size()
        }
    }

    /// 36 comes first in every later call.
    pub fn opened(&self, file: &[u8], lent: &Lent, state: State) -> Result<(Program, Store), Refusal> {
        if self.is(Mutant::BadFileOwnNumber) {
            decode(file)?;
        }
        let program = fitting(file, lent, state, self.mutant).ok_or(plain(36))?;
        let mut store = self.store(&program, lent);
        store.read(lent, state);
        Ok((program, store))
    }

    pub fn load(&self, file: &[u8], lent: &mut Lent) -> Step {
        self.try_load(file, lent).map_or_else(|refusal| Step::refused(refusal, State::ZEROS), Step::done)
    }

    fn try_load(&self, file: &[u8], lent: &mut Lent) -> Result<State, Refusal> {
        let program = decode(file)?;
        if lent.places.len() < PLACES {
            return Err(plain(36));
        }
        let mut store = self.store(&program, lent);
        if store.load().is_err() {
            return Err(plain(12));
        }
        let before = lent.clone();
        store.write(lent);
        let (nodes, atoms) = (store.nodes(), program.atoms());
        match self.mutant {
            Mutant::LoadingKeepsPlaces => lent.places[atoms..].copy_from_slice(&before.places[atoms..]),
            Mutant::LoadingKeepsWords => lent.words[nodes..].copy_from_slice(&before.words[nodes..]),
            _ => {}
        }
        Ok(State { layer: self.first_layer(&program), nodes: nodes as u32 })
    }

    fn first_layer(&self, program: &Program) -> u32 {
        match self.mutant {
            Mutant::StartsAtLayerOne if !program.layers.is_empty() => 1,
            Mutant::StartsAtFirstAtom if !program.layers.is_empty() => u32::from(program.layers[0]),
            Mutant::NoAtomsUnfinished if program.layers.is_empty() => 1,
            _ => layers::above(program, 0),
        }
    }

    pub fn update(&self, file: &[u8], lent: &mut Lent, state: State, atom: u32) -> Step {
        self.try_update(file, lent, state, atom).map_or_else(|refusal| Step::refused(refusal, state), Step::done)
    }

    fn try_update(&self, file: &[u8], lent: &mut Lent, state: State, atom: u32) -> Result<State, Refusal> {
        let (program, mut store) = self.opened(file, lent, state)?;
        let atom = if self.is(Mutant::AtomInTwoBytes) { atom % 65_536 } else { atom } as usize;
        if self.is(Mutant::TwelveBeforeFourteen) && atom < program.atoms() && store.check(&program, atom).full {
            return Err(plain(12));
        }
        self.test_atom(&program, state, atom)?;
        let done = store.update(&program, atom);
        if self.is(Mutant::WholeLayerUpdated) {
            for other in layers::atoms(&program, state.layer) {
                let _ = store.update(&program, other);
            }
        }
        let traces = self.is(Mutant::FullKeepsNodes) || self.is(Mutant::FullKeepsWords);
        if done.is_ok() || traces {
            store.write(lent);
        }
        let after = State { nodes: store.nodes() as u32, ..state };
        done.map(|_| after).map_err(|Full| plain(12))
    }

    /// 13, then 14.
    fn test_atom(&self, program: &Program, state: State, atom: usize) -> Result<(), Refusal> {
        let (first, end) = match self.mutant {
            Mutant::FactsUnknown => (program.facts.len(), program.atoms()),
            Mutant::AtomAtEndKnown => (0, program.atoms() + 1),
            _ => (0, program.atoms()),
        };
        let known = (first..end).contains(&atom);
        if !known && !(self.is(Mutant::FourteenInFinishedFirst) && state.finished()) {
            return Err(plain(13));
        }
        let derived = (program.facts.len()..program.atoms()).contains(&atom);
        let layer = if derived { u32::from(program.layer(atom)) } else { 0 };
        let in_work = match self.mutant {
            Mutant::LowerLayersTaken => derived && layer <= state.layer,
            Mutant::HigherLayersTaken => derived && layer >= state.layer && state.layer != FINISHED,
            _ => layer == state.layer,
        };
        if in_work {
            Ok(())
        } else {
            Err(plain(14))
        }
    }
}

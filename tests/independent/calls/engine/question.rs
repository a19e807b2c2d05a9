//! What the three questions share: the refusals that need no diagram, and the working numbers.

use super::answer::plain;
use super::calls::Engine;
use super::memory::{Lent, State};
use super::mutant::Mutant;
use crate::file::{decode, Refusal};
use crate::support::program::Program;

/// The most evidence literals.
const EVIDENCE: usize = 64;

/// A question, as far as its refusals look at it.
pub struct Question<'a> {
    pub state: State,
    pub atom: u32,
    pub evidence: &'a [u16],
    /// How many working numbers are lent.
    pub numbers: usize,
}

impl Engine {
    /// The first of these refusals that is due.
    pub fn test(&self, order: &[u32], program: &Program, lent: &Lent, question: &Question) -> Result<(), Refusal> {
        match order.iter().find(|number| self.due(**number, program, lent, question)) {
            Some(13) if self.is(Mutant::UnknownEvidenceNamed) => Err(Refusal { number: 13, detail: question.atom }),
            Some(number) => Err(plain(*number)),
            None => Ok(()),
        }
    }

    fn due(&self, number: u32, program: &Program, lent: &Lent, question: &Question) -> bool {
        let unknown = |literal: &u16| usize::from(literal / 2) >= program.atoms();
        let most = match self.mutant {
            Mutant::SixtyFourTooMany => EVIDENCE - 1,
            Mutant::SixtyFiveTaken => EVIDENCE + 1,
            _ => EVIDENCE,
        };
        match number {
            13 if self.is(Mutant::UnknownEvidenceTaken) => question.atom as usize >= program.atoms(),
            13 => question.atom as usize >= program.atoms() || question.evidence.iter().any(unknown),
            17 => !question.state.finished(),
            18 => question.evidence.len() > most,
            19 => question.numbers < self.numbers_needed(lent, question.state),
            _ => false,
        }
    }

    fn numbers_needed(&self, lent: &Lent, state: State) -> usize {
        match self.mutant {
            Mutant::OneNumberLess => lent.size() + 1,
            Mutant::OneNumberMore => lent.size() + 3,
            Mutant::NumbersByNodesInUse => state.nodes as usize + 2,
            Mutant::NumbersByLentLength => lent.words.len() + 2,
            _ => lent.size() + 2,
        }
    }

    /// After an answer and after 20: exactly the first N + 2 are 0.
    pub fn clear(&self, lent: &Lent, state: State, numbers: &mut [u64]) {
        let count = match self.mutant {
            Mutant::NumbersKept => 0,
            Mutant::AllNumbersCleared => numbers.len(),
            Mutant::NodesInUseCleared => state.nodes as usize + 2,
            _ => lent.size() + 2,
        };
        let count = count.min(numbers.len());
        numbers[..count].fill(0);
    }

    /// For one mutant only: it looks at the atom before it looks whether all fits together.
    pub fn unknown_too_early(&self, file: &[u8], atom: u32) -> Result<(), Refusal> {
        let unknown = decode(file).is_ok_and(|program| atom as usize >= program.atoms());
        if self.is(Mutant::ThirteenBeforeThirtySix) && unknown {
            return Err(plain(13));
        }
        Ok(())
    }
}

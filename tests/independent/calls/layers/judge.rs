//! What reach_layers must answer and write, and whether it did.

use super::chain;
use super::smallest::smallest;
use crate::calls::engine::answer::Listed;
use crate::file::mutants;
use crate::file::{decode_without_eleven, Refusal};
use crate::support::program::Program;

/// The least output that is taken.
pub const ROOM: usize = 2_048;

#[derive(Clone, Debug, PartialEq)]
pub enum Expected {
    /// Nothing is written.
    Refused(Refusal),
    /// 24: some chain through this atom is written.
    Chain(Program, u32),
    /// The layer of each derived atom, and the number of facts before them.
    Layers(Vec<u8>, usize),
}

/// 21 comes before all that is in the file.
pub fn expected(file: &[u8], room: usize) -> Expected {
    if room < ROOM {
        return Expected::Refused(Refusal { number: 21, detail: 0 });
    }
    match decode_without_eleven(file, mutants::Mutant::None) {
        Err(refusal) => Expected::Refused(refusal),
        Ok(program) => of_rules(program),
    }
}

/// 24 before 37.
fn of_rules(program: Program) -> Expected {
    let layers = match smallest(&program) {
        Err(atom) => return Expected::Chain(program, atom as u32),
        Ok(layers) => layers,
    };
    if let Some(atom) = layers.iter().position(|layer| *layer > 255) {
        return Expected::Refused(Refusal { number: 37, detail: atom as u32 });
    }
    let facts = program.facts.len();
    Expected::Layers(layers[facts..].iter().map(|layer| *layer as u8).collect(), facts)
}

impl Expected {
    /// The refusal's number; 0 for layers.
    pub fn number(&self) -> u32 {
        match self {
            Expected::Refused(refusal) => refusal.number,
            Expected::Chain(..) => 24,
            Expected::Layers(..) => 0,
        }
    }

    fn detail(&self) -> u32 {
        match self {
            Expected::Refused(refusal) => refusal.detail,
            Expected::Chain(_, atom) => *atom,
            Expected::Layers(..) => 0,
        }
    }

    /// The output before and after the call.
    pub fn judge(&self, answer: &Listed, before: &[u8], after: &[u8]) -> Result<(), String> {
        let (refusal, detail) = (self.number(), self.detail());
        if (answer.refusal, answer.detail) != (refusal, detail) {
            return Err(format!("expected refusal {refusal} detail {detail} got {answer:?}"));
        }
        let written = match self {
            Expected::Refused(_) => 0,
            Expected::Chain(..) => 2 + 2 * two(after, 0),
            Expected::Layers(layers, _) => layers.len(),
        };
        if answer.length != written as u64 {
            return Err(format!("expected length {written} got {answer:?}"));
        }
        match self {
            Expected::Chain(program, atom) => chain::test(program, *atom, &chain_in(after)?)?,
            Expected::Layers(layers, _) => same("layers", 0, layers, &after[..written])?,
            Expected::Refused(_) => {}
        }
        same("kept bytes", written, &before[written..], &after[written..])
    }
}

fn two(bytes: &[u8], at: usize) -> usize {
    usize::from(bytes[at]) + 256 * usize::from(bytes[at + 1])
}

fn chain_in(out: &[u8]) -> Result<Vec<usize>, String> {
    let count = two(out, 0);
    if 2 + 2 * count > out.len() {
        return Err(format!("{count} rules in an output of {} bytes", out.len()));
    }
    Ok((1..=count).map(|at| two(out, 2 * at)).collect())
}

fn same(what: &str, start: usize, expected: &[u8], got: &[u8]) -> Result<(), String> {
    if expected == got {
        return Ok(());
    }
    let at = (0..expected.len()).find(|at| expected[*at] != got[*at]).unwrap_or(expected.len());
    Err(format!("{what} differ from output[{}] on", start + at))
}

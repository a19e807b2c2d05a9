//! Programs and memory for sessions.

use crate::calls::engine::jobs::drawn::{plain, rich};
use crate::calls::engine::jobs::needed;
use crate::calls::engine::memory::{Lent, State, LARGEST, PLACES};
use crate::calls::host::Memory;
use crate::support::encode::encode;
use crate::support::legal::weights;
use crate::support::program::Program;
use crate::support::random::Random;

#[derive(Clone, Copy, Debug, PartialEq)]
pub enum Kind {
    /// Few facts: all choices can be gone through.
    Few,
    /// Up to 32 facts.
    Many,
    /// Lent arrays longer than needed, and dirty beyond.
    Long,
    /// Every other call on memory, a file or a state that is damaged.
    Harmed,
    /// Mostly questions, after a run to the finish.
    Asked,
}

pub fn program(kind: Kind, random: &mut Random) -> Program {
    let facts = match kind {
        Kind::Many => 9 + random.below(24),
        _ => random.pick(&[0, 1, 1, 2, 2, 2, 3, 3, 4, 5, 6, 8]),
    };
    let mut program = match random.below(8) {
        0 => Program { facts: vec![(1, 1); facts], layers: vec![], rules: vec![] },
        1..=4 if facts > 1 => rich(facts, 2 + random.below(6), random),
        _ => plain(facts, 7, random),
    };
    // Heavier weights than those of the jobs, which are never weighed.
    if random.below(3) > 0 {
        program.facts = weights(facts, random);
    }
    program
}

/// N: often too small by a little, because faults sit there.
pub fn size(kind: Kind, program: &Program, random: &mut Random) -> usize {
    let (facts, needed) = (program.facts.len(), needed(program));
    match random.below(10) {
        _ if kind == Kind::Long => LARGEST,
        0 => LARGEST,
        1 => facts,
        2 | 3 => needed,
        4 if kind != Kind::Asked => needed.saturating_sub(1).max(facts),
        5 | 6 if kind != Kind::Asked => facts + random.below(needed - facts + 1),
        _ => (needed + random.below(12)).min(LARGEST),
    }
}

/// Dirty all over, as a host may lend it.
pub fn memory(kind: Kind, program: &Program, random: &mut Random) -> Memory {
    let size = size(kind, program, random);
    let beyond = if kind == Kind::Long { 1 + random.below(9) } else { 0 };
    let places = PLACES + if random.below(2) == 0 || kind == Kind::Long { random.below(9) } else { 0 };
    let words = (0..size + beyond).map(|_| random.draw() as u32).collect();
    let places = (0..places).map(|_| random.draw() as u16).collect();
    let state = State { layer: random.below(3) as u32, nodes: random.below(9) as u32 };
    let file = encode(program);
    Memory { file, lent: Lent { words, places }, state, evidence: vec![], numbers: vec![], out: vec![] }
}

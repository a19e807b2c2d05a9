//! The layers that have atoms.

use super::memory::FINISHED;
use crate::support::program::Program;

/// A layer's atoms in ascending order. Facts are of no layer that can be in work.
pub fn atoms(program: &Program, layer: u32) -> Vec<usize> {
    let derived = program.facts.len()..program.atoms();
    derived.filter(|atom| u32::from(program.layer(*atom)) == layer).collect()
}

/// The lowest layer above this one that has atoms; above the last the run is finished.
pub fn above(program: &Program, layer: u32) -> u32 {
    let layers = program.layers.iter().map(|layer| u32::from(*layer));
    layers.filter(|other| *other > layer).min().unwrap_or(FINISHED)
}

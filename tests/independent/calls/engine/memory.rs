//! What the host lends and passes: arrays and numbers as reach.h has them.

use std::fmt;

/// The largest N: a longer lent store is used only that far.
pub const LARGEST: usize = 4_096;

/// Atom places that a store must have; those beyond are not used.
pub const PLACES: usize = 544;

/// The layer in work of a finished run.
pub const FINISHED: u32 = 65_535;

#[derive(Clone, Debug, PartialEq)]
pub struct Lent {
    /// Node number n is at n - 2.
    pub words: Vec<u32>,
    pub places: Vec<u16>,
}

impl Lent {
    /// Document 01's N.
    pub fn size(&self) -> usize {
        self.words.len().min(LARGEST)
    }
}

/// `reach_state`.
#[repr(C)]
#[derive(Clone, Copy, Debug, PartialEq)]
pub struct State {
    pub layer: u32,
    pub nodes: u32,
}

impl State {
    /// What a refused loading gives; it fits nothing.
    pub const ZEROS: State = State { layer: 0, nodes: 0 };

    pub fn finished(&self) -> bool {
        self.layer == FINISHED
    }
}

impl fmt::Display for State {
    fn fmt(&self, out: &mut fmt::Formatter) -> fmt::Result {
        write!(out, "{} {}", self.layer, self.nodes)
    }
}

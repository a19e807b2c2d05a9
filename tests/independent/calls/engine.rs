//! The calls of document 01 on a store, and the jobs of the test program `runs`.
//!
//! That program reads jobs, each a file and calls on it, and prints what each call answers and what the store then
//! holds. The engine here owes nothing to the library. Each call starts from the file's bytes, the lent memory and the
//! passed numbers alone, reads every node as a function of the facts, and finds numbers by functions; full is judged
//! by counting functions, as the document words it.

pub mod answer;
mod bounds;
mod build;
mod by_hand;
pub mod calls;
mod checks;
mod close;
mod count;
mod coverage;
mod diagrams;
mod fit;
mod fit_checks;
mod form;
pub mod given;
pub mod job;
pub mod jobs;
pub mod layers;
mod listing;
mod meaning;
pub mod memory;
pub mod mutant;
pub mod node;
mod numbering;
pub mod programs;
mod question;
mod run;
mod session;
mod store;
mod tables;
mod watch;
mod weights;

use calls::Engine;
pub use checks::check;

pub fn input() -> Vec<u8> {
    jobs::input(&jobs::jobs())
}

pub fn output() -> String {
    jobs::jobs().iter().map(|job| session::text(job, Engine::HONEST)).collect()
}

//! The input of the test program `builds`, and what it must print.
//!
//! That program reads scripts of builds, each from an empty store, and prints the numbers and nodes that come out of
//! the library. The text here owes nothing to the library: functions are tables or polynomials, and a node is found by
//! its function.

mod by_hand;
mod chance;
mod checks;
mod diagram;
mod function;
mod mutant;
mod numbering;
mod play;
mod polynomial;
mod script;
mod scripts;
mod table;

pub use checks::check;
use mutant::Mutant;

pub fn input() -> Vec<u8> {
    script::encode(&scripts::scripts())
}

pub fn output() -> String {
    play::text(&scripts::scripts(), Mutant::None)
}

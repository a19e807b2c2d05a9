//! Request L4: the smallest layers worked out from the rules alone, or a chain that shows why there are none. This
//! program's own answer is found over strongly connected components (smallest.rs). A written chain is not compared but
//! held against what a chain is (chain.rs), since any will do.

mod brute;
mod by_hand;
mod chain;
mod chance;
mod checks;
mod components;
mod corpus;
mod judge;
mod ladders;
mod links;
mod met;
mod mutant;
mod rings;
mod search;
mod side;
mod smallest;
mod stand_in;
mod text;
mod watch;
mod web;

pub use checks::check;
pub use text::judge_files;

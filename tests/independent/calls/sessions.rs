//! Whole sessions through the boundary, the library beside the engine of this program. They are drawn by chance, the
//! same for the same seed on every machine.

mod asks;
mod checks;
mod draw;
mod harm;
mod large;
mod long;
mod meaning;
mod met;
mod play;
mod player;
mod worked;

pub use checks::check;
pub use long::long;

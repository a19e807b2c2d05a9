//! The calls of reach.h, made on lent memory by one of two sides: the library, or the engine in its place. Memory and
//! answers have one form, so whole sessions can be compared field by field. reach_layers, which takes no store and
//! leaves the choice of a chain open, has sides of its own (layers/side.rs).

mod abi;
mod call;
mod guard;
mod library;
mod stand_in;

pub use abi::reach_layers;
pub use call::{Answer, Call, Memory, Side};
pub use guard::Guarded;
pub use library::Library;

//! The program file: reading and refusals 1 to 11, this program's reader beside `reach_read` on a large corpus, and wrong
//! readings that the corpus must show.

pub mod boundary;
pub mod compare;
pub mod corpus;
pub mod mutants;
mod reader;

pub use reader::{counts, decode, decode_without_eleven, Refusal};

//! What all parts stand on: programs as values, their files, numbers by chance, and how a check answers.

pub mod checked;
pub mod encode;
pub mod legal;
pub mod program;
pub mod random;
pub mod report;
pub mod worked;

//! The meaning of a program: by going through all choices, and as document 01's worked examples have it.

pub mod model;
pub mod paper;

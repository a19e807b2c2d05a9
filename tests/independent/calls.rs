//! The calls of reach.h: an engine of this program's own, the boundary to the library's, whole sessions of both side by
//! side, and request L4.

pub mod engine;
pub mod host;
pub mod layers;
pub mod sessions;

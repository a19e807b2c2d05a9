//! Jobs of the test program `runs`: values and bytes.

use crate::support::encode::{encode, push2};
use crate::support::program::Program;

pub const RUN: u8 = 0;
pub const UPDATE: u8 = 1;
pub const CLOSE: u8 = 2;

#[derive(Clone, Copy, Debug, PartialEq)]
pub struct Call {
    /// Numbers past 2 are closings as well.
    pub what: u8,
    /// The budget or the atom; a closing does not look at it.
    pub number: u32,
}

pub fn run(budget: u32) -> Call {
    Call { what: RUN, number: budget }
}

pub fn update(atom: u32) -> Call {
    Call { what: UPDATE, number: atom }
}

pub fn close() -> Call {
    Call { what: CLOSE, number: 0 }
}

#[derive(Clone, Debug, PartialEq)]
pub struct Job {
    /// N; over 4,096 it is used as 4,096.
    pub size: u16,
    pub calls: Vec<Call>,
    pub file: Vec<u8>,
}

impl Job {
    pub fn new(size: usize, calls: &[Call], program: &Program) -> Job {
        Job { size: size as u16, calls: calls.to_vec(), file: encode(program) }
    }

    pub fn bytes(&self) -> Vec<u8> {
        let mut bytes = Vec::new();
        push2(&mut bytes, self.size);
        push2(&mut bytes, self.calls.len() as u16);
        bytes.extend((self.file.len() as u32).to_le_bytes());
        for call in &self.calls {
            bytes.push(call.what);
            bytes.extend(call.number.to_le_bytes());
        }
        bytes.extend(&self.file);
        bytes
    }
}

//! A node, and the word of reach.h in which it is lent.

use std::fmt;

#[derive(Clone, Copy, Debug, PartialEq, Eq, Hash)]
pub struct Node {
    pub fact: usize,
    pub low: usize,
    pub high: usize,
}

impl Node {
    /// fact * 2^26 + low * 2^13 + high.
    pub fn word(&self) -> u32 {
        (self.fact << 26 | self.low << 13 | self.high) as u32
    }

    pub fn of(word: u32) -> Node {
        let word = word as usize;
        Node { fact: word >> 26, low: word >> 13 & 8_191, high: word & 8_191 }
    }
}

impl fmt::Display for Node {
    fn fmt(&self, out: &mut fmt::Formatter) -> fmt::Result {
        write!(out, "{}/{}/{}", self.fact, self.low, self.high)
    }
}

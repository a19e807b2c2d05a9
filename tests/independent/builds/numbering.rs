//! Node numbers, given function by function as each is built.

use super::function::Function;
use super::mutant::Mutant;
use std::collections::BTreeMap;
use std::fmt;

#[derive(Clone, Copy, Debug, PartialEq, Eq, PartialOrd, Ord)]
pub struct Node {
    pub fact: u16,
    pub low: usize,
    pub high: usize,
}

impl fmt::Display for Node {
    fn fmt(&self, out: &mut fmt::Formatter) -> fmt::Result {
        write!(out, "{}/{}/{}", self.fact, self.low, self.high)
    }
}

/// A node is a function that is not constant; what fixing the lowest facts leaves of it are nodes too.
pub struct Numbering<F> {
    /// Node number n is at n - 2.
    pub nodes: Vec<Node>,
    numbers: BTreeMap<F, usize>,
    mutant: Mutant,
}

impl<F: Function> Numbering<F> {
    pub fn new(mutant: Mutant) -> Numbering<F> {
        Numbering { nodes: Vec::new(), numbers: BTreeMap::new(), mutant }
    }

    /// The function's number. New nodes get theirs depth first: whole low side, whole high side, then the node.
    pub fn build(&mut self, function: &F) -> usize {
        let Some(fact) = function.lowest() else { return usize::from(*function != F::never()) };
        if let Some(number) = self.numbers.get(function) {
            return *number;
        }
        let (low, high) = (function.fixed(fact, false), function.fixed(fact, true));
        match self.mutant {
            Mutant::HighSideFirst => {
                let (high, low) = (self.build(&high), self.build(&low));
                self.add(function, Node { fact, low, high })
            }
            Mutant::NodeBeforeSides => {
                let number = self.add(function, Node { fact, low: 0, high: 0 });
                self.nodes[number - 2] = Node { fact, low: self.build(&low), high: self.build(&high) };
                number
            }
            _ => {
                let (low, high) = (self.build(&low), self.build(&high));
                self.add(function, Node { fact, low, high })
            }
        }
    }

    fn add(&mut self, function: &F, node: Node) -> usize {
        self.nodes.push(node);
        let number = self.nodes.len() + 1;
        self.numbers.insert(function.clone(), number);
        number
    }
}

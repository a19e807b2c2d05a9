//! Full in document 01's own words.

use super::form::{Form, Function, ALWAYS, NEVER};
use super::mutant::Mutant;
use std::collections::HashSet;

/// The different functions, not constant, that are left of some functions where facts 0 to k - 1 are known, for some k.
#[derive(Clone)]
pub struct Count {
    facts: usize,
    mutant: Mutant,
    /// With 0 before each function; one mutant puts k there.
    different: HashSet<(usize, Function)>,
}

impl Count {
    pub fn new(facts: usize, mutant: Mutant) -> Count {
        Count { facts, mutant, different: HashSet::new() }
    }

    /// Goes up with k: of what is left where facts 0 to k - 1 are known, fact k is the next to be known. What was left
    /// before of this or another function came with all that is left of it in turn.
    pub fn add(&mut self, function: Function, form: &mut dyn Form) {
        let mut left: Vec<Function> = Vec::from_iter(self.new_at(0, function));
        for k in 0..self.ks() {
            let mut next = Vec::new();
            for function in left {
                let [off, on] = [false, true].map(|on| form.fixed(function, k, on));
                if off == on {
                    // Fact k makes no difference to it, so this is the function itself.
                    self.new_at(k + 1, function);
                    next.push(function);
                } else {
                    next.extend([off, on].iter().filter_map(|side| self.new_at(k + 1, *side)));
                }
            }
            left = next;
        }
    }

    fn new_at(&mut self, k: usize, function: Function) -> Option<Function> {
        let mark = if self.mutant == Mutant::EveryKCounts { k } else { 0 };
        let new = ![NEVER, ALWAYS].contains(&function) && self.different.insert((mark, function));
        new.then_some(function)
    }

    /// Facts that are made known one after another; all of them, after which only constants are left.
    fn ks(&self) -> usize {
        match self.mutant {
            Mutant::OnlyWholeFunctionsCount => 0,
            _ => self.facts,
        }
    }

    pub fn number(&self) -> usize {
        self.different.len()
    }

    pub fn holds(&self, function: Function) -> bool {
        self.different.contains(&(0, function))
    }
}

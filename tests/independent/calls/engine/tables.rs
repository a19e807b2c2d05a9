//! Functions of up to 12 facts, written out for all choices.

use super::form::{Form, Function};
use std::collections::HashMap;

/// Facts that a table reaches.
pub const REACH: usize = 12;

/// Of the 64 choices of a word those where fact i is on, for the facts that change inside a word.
const ON: [u64; 6] = [
    0xAAAA_AAAA_AAAA_AAAA,
    0xCCCC_CCCC_CCCC_CCCC,
    0xF0F0_F0F0_F0F0_F0F0,
    0xFF00_FF00_FF00_FF00,
    0xFFFF_0000_FFFF_0000,
    0xFFFF_FFFF_0000_0000,
];

/// Bit c of all words together says whether the function holds under choice c, in which fact i is on where bit i of c
/// is 1.
type Table = Vec<u64>;

pub struct Tables {
    /// Words of each table.
    words: usize,
    tables: Vec<Table>,
    found: HashMap<Table, Function>,
}

impl Tables {
    pub fn new(facts: usize) -> Tables {
        assert!(facts <= REACH, "tables do not reach {facts} facts");
        let words = 1 << facts.saturating_sub(ON.len());
        let mut tables = Tables { words, tables: Vec::new(), found: HashMap::new() };
        tables.find(vec![0; words]);
        tables.find(vec![u64::MAX; words]);
        tables
    }

    fn find(&mut self, table: Table) -> Function {
        let next = Function(self.tables.len());
        let function = *self.found.entry(table.clone()).or_insert(next);
        if function == next {
            self.tables.push(table);
        }
        function
    }

    fn fixed_table(&self, of: Function, fact: usize, on: bool) -> Table {
        let table = &self.tables[of.0];
        let Some(mask) = ON.get(fact) else {
            let block = 1 << (fact - ON.len());
            return (0..self.words).map(|at| table[if on { at | block } else { at & !block }]).collect();
        };
        let both = |word: &u64| {
            if on {
                word & mask | (word & mask) >> (1 << fact)
            } else {
                word & !mask | (word & !mask) << (1 << fact)
            }
        };
        table.iter().map(both).collect()
    }
}

impl Form for Tables {
    fn fact(&mut self, fact: usize) -> Function {
        let word = |at: usize| match ON.get(fact) {
            Some(mask) => *mask,
            None if at >> (fact - ON.len()) & 1 == 1 => u64::MAX,
            None => 0,
        };
        let table = (0..self.words).map(word).collect();
        self.find(table)
    }

    fn not(&mut self, of: Function) -> Function {
        let table = self.tables[of.0].iter().map(|word| !word).collect();
        self.find(table)
    }

    fn and(&mut self, left: Function, right: Function) -> Function {
        let pairs = self.tables[left.0].iter().zip(&self.tables[right.0]);
        let table = pairs.map(|(left, right)| left & right).collect();
        self.find(table)
    }

    fn or(&mut self, left: Function, right: Function) -> Function {
        let pairs = self.tables[left.0].iter().zip(&self.tables[right.0]);
        let table = pairs.map(|(left, right)| left | right).collect();
        self.find(table)
    }

    fn lowest(&self, of: Function) -> Option<usize> {
        (0..REACH.min(self.words.trailing_zeros() as usize + ON.len()))
            .find(|fact| self.fixed_table(of, *fact, false) != self.fixed_table(of, *fact, true))
    }

    fn fixed(&mut self, of: Function, fact: usize, on: bool) -> Function {
        let table = self.fixed_table(of, fact, on);
        self.find(table)
    }
}

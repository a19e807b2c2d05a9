//! A program as document 01 speaks of it. The value may break the rules: refused files are written from it too.

#[derive(Clone, Debug, PartialEq)]
pub struct Program {
    /// On and off weight of each fact.
    pub facts: Vec<(u16, u16)>,
    /// Layer of each derived atom.
    pub layers: Vec<u8>,
    pub rules: Vec<Rule>,
}

#[derive(Clone, Debug, PartialEq)]
pub struct Rule {
    pub head: u16,
    /// Literals: 2 * atom, plus 1 if negated.
    pub body: Vec<u16>,
}

impl Program {
    pub fn atoms(&self) -> usize {
        self.facts.len() + self.layers.len()
    }

    pub fn layer(&self, atom: usize) -> u8 {
        if atom < self.facts.len() {
            0
        } else {
            self.layers[atom - self.facts.len()]
        }
    }
}

pub fn rule(head: u16, body: &[u16]) -> Rule {
    Rule { head, body: body.to_vec() }
}

pub fn yes(atom: u16) -> u16 {
    2 * atom
}

pub fn not(atom: u16) -> u16 {
    2 * atom + 1
}

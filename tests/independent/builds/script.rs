//! Scripts of builds: values, bytes, and a writer for them. A script may be wrong: bad instructions are values too.

use crate::support::encode::push2;

pub const FACT: u8 = 0;
pub const AND: u8 = 1;
pub const OR: u8 = 2;
pub const NOT: u8 = 3;

/// Largest store.
pub const LARGEST: usize = 4_096;

#[derive(Clone, Copy, Debug, PartialEq)]
pub struct Step {
    pub op: u8,
    pub x: u16,
    pub y: u16,
}

impl Step {
    pub fn new(op: u8, x: u16, y: u16) -> Step {
        Step { op, x, y }
    }

    /// Numbers of the results that it needs.
    pub fn operands(&self) -> Vec<usize> {
        let operands = [usize::from(self.x), usize::from(self.y)];
        match self.op {
            AND | OR => operands.to_vec(),
            NOT => operands[..1].to_vec(),
            _ => Vec::new(),
        }
    }
}

#[derive(Clone, Debug, PartialEq)]
pub struct Script {
    /// Size of the store.
    pub size: usize,
    pub steps: Vec<Step>,
}

impl Script {
    /// Whether it names no fact from this one on.
    pub fn below(&self, fact: u16) -> bool {
        self.steps.iter().all(|step| step.op != FACT || step.x < fact)
    }
}

pub fn encode(scripts: &[Script]) -> Vec<u8> {
    let mut bytes = Vec::new();
    for script in scripts {
        push2(&mut bytes, script.size as u16);
        push2(&mut bytes, script.steps.len() as u16);
        for step in &script.steps {
            bytes.push(step.op);
            push2(&mut bytes, step.x);
            push2(&mut bytes, step.y);
        }
    }
    bytes
}

/// Puts instructions one behind another; each call gives the number of the last result.
#[derive(Default)]
pub struct Writer {
    pub steps: Vec<Step>,
}

impl Writer {
    fn push(&mut self, op: u8, x: u16, y: u16) -> u16 {
        self.steps.push(Step::new(op, x, y));
        self.steps.len() as u16 - 1
    }

    pub fn fact(&mut self, fact: u16) -> u16 {
        self.push(FACT, fact, 0)
    }

    pub fn and(&mut self, left: u16, right: u16) -> u16 {
        self.push(AND, left, right)
    }

    pub fn or(&mut self, left: u16, right: u16) -> u16 {
        self.push(OR, left, right)
    }

    pub fn not(&mut self, of: u16) -> u16 {
        self.push(NOT, of, 0)
    }

    /// There is no instruction for never: a fact and its negation together give it.
    pub fn never(&mut self, fact: u16) -> u16 {
        let on = self.fact(fact);
        let off = self.not(on);
        self.and(on, off)
    }

    /// Holds where exactly one of them does: (p and not f) or (not p and f).
    pub fn differ(&mut self, p: u16, f: u16) -> u16 {
        let not_f = self.not(f);
        let left = self.and(p, not_f);
        let not_p = self.not(p);
        let right = self.and(not_p, f);
        self.or(left, right)
    }
}

//! Rule sets by chance. Each is made from its own number, so one that differs can be made again alone.

use super::ladders::{self, mix};
use super::rings;
use crate::support::encode::{encode, set2};
use crate::support::legal::{weights, LONGEST};
use crate::support::program::{rule, Program, Rule};
use crate::support::random::Random;

/// How literals are drawn.
struct Draw {
    /// Hidden layers that literals keep to, by atom.
    hidden: Vec<usize>,
    /// One literal in so many keeps to nothing; 0 for none.
    stray: usize,
    /// So many literals of 8 are drawn negated.
    negated: usize,
    /// Most literals of a body.
    body: usize,
}

pub fn small(number: u64) -> Vec<u8> {
    let mut random = Random::new(number);
    let (derived, rules) = (random.below(7), random.below(14));
    encode(&program(derived, rules, &mut random))
}

pub fn medium(number: u64) -> Vec<u8> {
    let mut random = Random::new(number);
    let (derived, rules) = (1 + random.below(80), random.below(250));
    encode(&program(derived, rules, &mut random))
}

/// About the limits.
pub fn large(number: u64) -> Vec<u8> {
    let mut random = Random::new(number);
    let (derived, rules) = (random.pick(&[512, 511, 400]), random.pick(&[2_048, 2_047, 700]));
    encode(&program(derived, rules, &mut random))
}

pub fn small_rings(number: u64) -> Vec<u8> {
    encode(&rings::program(12, &mut Random::new(number)))
}

pub fn large_rings(number: u64) -> Vec<u8> {
    encode(&rings::program(512, &mut Random::new(number)))
}

/// A ladder about or above layer 255 among rules that keep to it; in every fourth a literal strays, and mostly makes a
/// chain.
pub fn deep(number: u64) -> Vec<u8> {
    let mut random = Random::new(number);
    let (facts, steps) = (random.size(32), random.pick(&[254, 255, 256, 257, 300, 512]));
    let mut program = ladders::up(facts, steps);
    let hidden = (0..program.atoms()).map(|atom| (atom + 1).saturating_sub(facts)).collect();
    let draw = Draw { hidden, stray: if number % 4 == 0 { 400 } else { 0 }, negated: 4, body: 4 };
    for _ in 0..random.below(500) {
        let next = draw.rule(&program, &mut random);
        program.rules.push(next);
    }
    ladders::shuffle(&mut program, &mut random);
    encode(&program)
}

/// Given layers that many literals break, and mostly faults behind them.
pub fn faulty(number: u64) -> Vec<u8> {
    let mut random = Random::new(number);
    let (derived, rules) = (1 + random.below(6), 1 + random.below(12));
    let mut program = program(derived, rules, &mut random);
    for _ in 0..random.below(3) {
        add_fault(&mut program, &mut random);
    }
    let mut faulty = encode(&program);
    match random.below(6) {
        0 => faulty.truncate(faulty.len() - 1 - random.below(6)),
        1 => faulty.extend(vec![0; 1 + random.below(6)]),
        2 => {
            let at = random.below(faulty.len() - 1);
            set2(&mut faulty, at, random.below(40) as u16);
        }
        _ => {}
    }
    faulty
}

fn add_fault(program: &mut Program, random: &mut Random) {
    if program.rules.is_empty() {
        return;
    }
    let atoms = program.atoms();
    let number = random.below(program.rules.len());
    match random.below(8) {
        0 => program.layers[random.below(atoms - program.facts.len())] = 0,
        1 if !program.facts.is_empty() => program.facts[0] = (0, 0),
        2 => program.rules[number].head = (atoms + random.below(3)) as u16,
        3 if !program.facts.is_empty() => program.rules[number].head = 0,
        4 => program.rules[number].body.resize(17, 0),
        5 => program.facts.extend([(65_535, 65_535); 4]),
        _ => program.rules[number].body.push((2 * atoms + random.below(4)) as u16),
    }
}

/// Freely drawn, or keeping to hidden layers, or nearly; the given layers say mostly something else.
fn program(derived: usize, rules: usize, random: &mut Random) -> Program {
    let facts = random.size(32).min(if derived > 100 { 32 } else { 5 });
    let mut program = Program { facts: weights(facts, random), layers: vec![1; derived], rules: Vec::new() };
    let levels = 1 + random.size(derived);
    let hidden = (0..facts + derived).map(|atom| if atom < facts { 0 } else { 1 + random.below(levels) }).collect();
    let stray = random.pick(&[0, 0, 0, 1, 5, 40, 1_000]);
    let draw = Draw { hidden, stray, negated: random.pick(&[0, 1, 4, 8]), body: random.pick(&[1, 2, 4, 16]) };
    let mut length = 28 + 4 * facts + derived;
    while derived > 0 && program.rules.len() < rules {
        let next = draw.rule(&program, random);
        length += 4 + 2 * next.body.len();
        if length > LONGEST {
            break;
        }
        program.rules.push(next);
    }
    if derived > 0 {
        repeat(&mut program, random);
    }
    program.layers = given(&draw.hidden[facts..], random);
    program
}

/// Now and then a rule comes again, or the rules in another order.
fn repeat(program: &mut Program, random: &mut Random) {
    match random.below(8) {
        0 => mix(&mut program.rules, random),
        1 if (1..1_000).contains(&program.rules.len()) => {
            let again = program.rules[random.below(program.rules.len())].clone();
            program.rules.push(again);
        }
        _ => {}
    }
}

/// The hidden layers where they fit in a byte, all the same, or any.
fn given(hidden: &[usize], random: &mut Random) -> Vec<u8> {
    let kind = random.below(3);
    hidden
        .iter()
        .map(|layer| match kind {
            0 => (*layer).min(255) as u8,
            1 => 1,
            _ => 1 + random.below(255) as u8,
        })
        .collect()
}

impl Draw {
    fn rule(&self, program: &Program, random: &mut Random) -> Rule {
        let head = program.facts.len() + random.below(program.layers.len());
        let literals = random.below(self.body + 1);
        let body: Vec<u16> = (0..literals).filter_map(|_| self.literal(head, random)).collect();
        rule(head as u16, &body)
    }

    /// None where four draws break the hidden layers.
    fn literal(&self, head: usize, random: &mut Random) -> Option<u16> {
        for _ in 0..4 {
            let (atom, negated) = (random.below(self.hidden.len()), usize::from(random.below(8) < self.negated));
            let strays = self.stray > 0 && random.below(self.stray) == 0;
            if strays || self.hidden[atom] + negated <= self.hidden[head] {
                return Some((2 * atom + negated) as u16);
            }
        }
        None
    }
}

//! Legal programs by chance, of a wanted shape.

use crate::support::program::{rule, yes, Program, Rule};
use crate::support::random::Random;

pub const LONGEST: usize = 65_536;

#[derive(Clone, Copy)]
pub struct Shape {
    pub facts: usize,
    pub derived: usize,
    pub rules: usize,
    /// Fewest and most literals of a body.
    pub body: (usize, usize),
}

/// Fewer rules than asked for where they would make the file too long, or where there is no atom for a head.
pub fn legal(shape: &Shape, random: &mut Random) -> Program {
    let mut program =
        Program { facts: weights(shape.facts, random), layers: layers(shape.derived, random), rules: Vec::new() };
    let mut length = 28 + 4 * shape.facts + shape.derived;
    let rules = if shape.derived == 0 { 0 } else { shape.rules };
    for _ in 0..rules {
        let (least, most) = shape.body;
        let literals = least + random.size(most - least);
        length += 4 + 2 * literals;
        if length > LONGEST {
            break;
        }
        let next = legal_rule(&program, literals, random);
        program.rules.push(next);
    }
    program
}

pub fn any_shape(random: &mut Random) -> Shape {
    Shape { facts: random.size(32), derived: random.size(512), rules: random.size(2_048), body: (0, 16) }
}

/// Once the product has no room for more, facts of 1/0 and 0/1 keep it as it is.
pub fn weights(facts: usize, random: &mut Random) -> Vec<(u16, u16)> {
    let mut total: u64 = 1;
    let mut weights = Vec::new();
    for _ in 0..facts {
        let (on, off) = (weight(random), weight(random));
        match total.checked_mul(u64::from(on) + u64::from(off)) {
            None | Some(0) => weights.push(random.pick(&[(1, 0), (0, 1)])),
            Some(product) => {
                total = product;
                weights.push((on, off));
            }
        }
    }
    weights
}

fn weight(random: &mut Random) -> u16 {
    match random.below(4) {
        0 => random.pick(&[0, 1, 255, 256, 65_535]),
        1 => random.draw() as u16,
        _ => random.below(4) as u16,
    }
}

/// One layer, few, all, or only high ones; most draws leave numbers unused.
fn layers(derived: usize, random: &mut Random) -> Vec<u8> {
    let (lowest, count) = random.pick(&[(1, 1), (1, 3), (1, 255), (126, 4), (254, 2), (255, 1)]);
    (0..derived).map(|_| (lowest + random.below(count)) as u8).collect()
}

pub fn legal_rule(program: &Program, literals: usize, random: &mut Random) -> Rule {
    let head = program.facts.len() + random.below(program.layers.len());
    let body: Vec<u16> = (0..literals).map(|_| legal_literal(program, head, random)).collect();
    rule(head as u16, &body)
}

/// Where four draws break the layers, the head itself is taken, which never does.
fn legal_literal(program: &Program, head: usize, random: &mut Random) -> u16 {
    for _ in 0..4 {
        let atom = random.below(program.atoms());
        let negated = random.below(2);
        let (layer, top) = (program.layer(atom), program.layer(head));
        if layer < top || negated == 0 && layer == top {
            return (2 * atom + negated) as u16;
        }
    }
    yes(head as u16)
}

/// A program whose file has exactly this many bytes, its bodies as equal as can be.
pub fn of_length(length: usize, derived: usize, rules: usize, random: &mut Random) -> Program {
    let shape = Shape { facts: 32, derived, rules: 0, body: (0, 0) };
    let mut program = legal(&shape, random);
    let left = length - (28 + 4 * shape.facts + derived + 4 * rules);
    assert!(left % 2 == 0, "literals fill an even number of bytes");
    let literals = left / 2;
    for number in 0..rules {
        let share = literals / rules + usize::from(number < literals % rules);
        let next = legal_rule(&program, share, random);
        program.rules.push(next);
    }
    program
}

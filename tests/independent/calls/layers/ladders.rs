//! High layers and long chains.

use super::by_hand::program;
use crate::support::program::{not, rule, yes, Program};
use crate::support::random::Random;

/// Each atom if not the one before: layers 1, 2, 3 and so on.
pub fn up(facts: usize, steps: usize) -> Program {
    let numbers: Vec<u16> = (facts..facts + steps).map(|atom| atom as u16).collect();
    numbered(facts, &numbers)
}

/// The same numbered downward: the highest atom is in layer 1.
pub fn down(facts: usize, steps: usize) -> Program {
    let numbers: Vec<u16> = (facts..facts + steps).rev().map(|atom| atom as u16).collect();
    numbered(facts, &numbers)
}

/// A ladder over atoms by these numbers, the first at the bottom.
fn numbered(facts: usize, numbers: &[u16]) -> Program {
    let rules: Vec<_> = numbers.windows(2).map(|step| rule(step[1], &[not(step[0])])).collect();
    program(facts, numbers.len(), &rules)
}

/// The longest that a shortest chain can be: x_i if x_i+1; x_511 if not x_1; x_511 if x_0. From x_0 it goes all the way
/// up, back to x_1, up again and back to x_0: 1,023 rules.
pub fn longest_chain(facts: usize) -> Program {
    let atom = |number: usize| (facts + number) as u16;
    let mut rules: Vec<_> = (0..511).map(|number| rule(atom(number), &[yes(atom(number + 1))])).collect();
    rules.extend([rule(atom(511), &[not(atom(1))]), rule(atom(511), &[yes(atom(0))])]);
    program(facts, 512, &rules)
}

/// Every height about 255 and the highest, in both directions, and with every second step plain.
pub fn heights() -> Vec<Program> {
    let mut programs = Vec::new();
    for steps in (1..4).chain(253..259).chain([384, 510, 511, 512]) {
        for facts in [0, 1, 32] {
            programs.extend([up(facts, steps), down(facts, steps), stretched(facts, steps)]);
        }
    }
    programs
}

/// Only every second step is negated, so 510 to 512 steps reach layers about 256.
fn stretched(facts: usize, steps: usize) -> Program {
    let mut program = up(facts, steps);
    for plain in program.rules.iter_mut().skip(1).step_by(2) {
        plain.body[0] -= 1;
    }
    program
}

/// Chains in every length about the longest, with atoms and rules in any order.
pub fn long_chains() -> Vec<Program> {
    let mut programs = Vec::new();
    for number in 0..16 {
        let mut random = Random::new(number);
        let mut program = longest_chain(random.pick(&[0, 1, 32]));
        let negation = program.rules.len() - 2;
        let start = program.facts.len();
        // Where the chain turns back, it gets shorter.
        let turn = if number < 6 { number as usize } else { random.below(512) };
        program.rules[negation].body[0] = not((start + turn) as u16);
        if number % 2 == 1 {
            shuffle(&mut program, &mut random);
        }
        programs.push(program);
    }
    programs
}

/// Other numbers for the derived atoms, and the rules in another order.
pub fn shuffle(program: &mut Program, random: &mut Random) {
    let facts = program.facts.len();
    let mut numbers: Vec<usize> = (0..program.atoms()).collect();
    mix(&mut numbers[facts..], random);
    for rule in &mut program.rules {
        rule.head = numbers[usize::from(rule.head)] as u16;
        for literal in &mut rule.body {
            *literal = 2 * numbers[usize::from(*literal / 2)] as u16 + *literal % 2;
        }
    }
    mix(&mut program.rules, random);
}

pub fn mix<T>(list: &mut [T], random: &mut Random) {
    for end in (1..list.len()).rev() {
        list.swap(end, random.below(end + 1));
    }
}

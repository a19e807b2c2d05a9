//! Rings of rules, some with negated links, that lead to each other.

use super::ladders::shuffle;
use crate::support::program::{not, rule, yes, Program};
use crate::support::random::Random;

/// Up to as many derived atoms, in rings of many sizes; bridges lead only from later rings to earlier ones, so a chain
/// lies within a ring. Most rings are plain, or nearly every draw would be refused for atom 0.
pub fn program(largest: usize, random: &mut Random) -> Program {
    let (facts, derived) = (random.size(4), 1 + random.below(largest));
    let mut program = Program { facts: vec![(1, 1); facts], layers: vec![1; derived], rules: Vec::new() };
    let negated = random.pick(&[0, 4, 16]);
    let mut start = facts;
    while start < facts + derived {
        let size = (1 + random.size(derived)).min(facts + derived - start);
        ring(&mut program, start, size, negated != 0 && random.below(negated) == 0, random);
        bridges(&mut program, start, size, random);
        start += size;
    }
    shuffle(&mut program, random);
    program
}

fn ring(program: &mut Program, start: usize, size: usize, negated: bool, random: &mut Random) {
    let place = random.below(size);
    for number in 0..size {
        let (head, next) = ((start + number) as u16, (start + (number + 1) % size) as u16);
        let literal = if negated && number == place { not(next) } else { yes(next) };
        let mut body = vec![literal];
        if !program.facts.is_empty() && random.below(4) == 0 {
            body.push(random.below(2 * program.facts.len()) as u16);
        }
        program.rules.push(rule(head, &body));
    }
}

/// To atoms before the ring, plain or negated.
fn bridges(program: &mut Program, start: usize, size: usize, random: &mut Random) {
    for _ in 0..random.below(3) {
        if start == 0 || program.rules.len() >= 2_000 {
            return;
        }
        let head = (start + random.below(size)) as u16;
        let literal = random.below(2 * start) as u16;
        program.rules.push(rule(head, &[literal]));
    }
}

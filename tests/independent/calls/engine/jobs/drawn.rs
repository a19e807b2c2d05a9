//! Programs by chance.

use crate::support::program::{not, rule, yes, Program, Rule};
use crate::support::random::Random;

/// Literals of all kinds that the layers allow: many rings, some constants.
pub fn plain(facts: usize, most: usize, random: &mut Random) -> Program {
    let numbers = random.pick(&[&[1][..], &[1, 2], &[1, 2, 3], &[7, 255], &[1, 100, 255], &[3]]);
    let mut program = without_rules(facts, 1 + random.below(most), numbers, random);
    for _ in 0..random.below(3 * program.layers.len() + 3) {
        let head = program.facts.len() + random.below(program.layers.len());
        let literals = random.pick(&[0, 1, 1, 1, 2, 2, 2, 2, 3, 3, 3, 4, 6]);
        let next = rule_of(&program, head, literals, random);
        program.rules.push(next);
    }
    program
}

/// Atoms that differ from each other and from constants, so that diagrams grow: each holds where just one of two
/// others does, or follows from two or three literals; some also stand in rings.
pub fn rich(facts: usize, atoms: usize, random: &mut Random) -> Program {
    let numbers = random.pick(&[&[1, 2][..], &[1, 2, 3], &[1, 4, 9, 255], &[2, 3]]);
    let mut program = without_rules(facts, atoms, numbers, random);
    for head in facts..program.atoms() {
        for _ in 0..1 + random.below(2) {
            let next = match random.below(3) {
                0 => vec![rule_of(&program, head, 2, random), rule_of(&program, head, 3, random)],
                _ => differ(&program, head, random),
            };
            program.rules.extend(next);
        }
    }
    shuffle(&mut program.rules, random);
    program
}

fn without_rules(facts: usize, atoms: usize, numbers: &[u8], random: &mut Random) -> Program {
    let layers = (0..atoms).map(|_| random.pick(numbers)).collect();
    let facts = (0..facts).map(|_| random.pick(&[(1, 1), (0, 1), (1, 0), (2, 1)])).collect();
    Program { facts, layers, rules: Vec::new() }
}

fn rule_of(program: &Program, head: usize, literals: usize, random: &mut Random) -> Rule {
    let body: Vec<u16> = (0..literals).filter_map(|_| literal(program, head, random)).collect();
    rule(head as u16, &body)
}

/// A fact as often as another atom; none where the draw breaks the layers.
fn literal(program: &Program, head: usize, random: &mut Random) -> Option<u16> {
    let facts = program.facts.len();
    let atom = if facts > 0 && random.below(2) == 0 { random.below(facts) } else { random.below(program.atoms()) };
    let (layer, top) = (program.layer(atom), program.layer(head));
    let negated = usize::from(layer < top && random.below(5) < 2);
    (layer <= top).then_some((2 * atom + negated) as u16)
}

/// The head holds where one of two lower atoms does and the other does not.
fn differ(program: &Program, head: usize, random: &mut Random) -> Vec<Rule> {
    let lower = |atom: &u16| program.layer((*atom).into()) < program.layer(head);
    let lower: Vec<u16> = (0..program.atoms() as u16).filter(lower).collect();
    let (one, other, head) = (random.pick(&lower), random.pick(&lower), head as u16);
    vec![rule(head, &[yes(one), not(other)]), rule(head, &[not(one), yes(other)])]
}

fn shuffle<T>(items: &mut [T], random: &mut Random) {
    for at in 1..items.len() {
        items.swap(at, random.below(at + 1));
    }
}

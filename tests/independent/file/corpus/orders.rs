//! Several faults at once, so that the order of refusals shows, and the edges of refusals 10 and 11.

use crate::support::encode::{encode, push2, set2};
use crate::support::program::{not, rule, yes, Program, Rule};

/// Facts that give 5 or 6, layers that give 7, rules that give 8 to 11, in every mix.
pub fn facts_layers_rules() -> Vec<Vec<u8>> {
    let mut files = Vec::new();
    // Five facts; four of 65,535/65,535 pass the largest total.
    for mix in 0..3usize.pow(5) {
        let facts = digits(mix, 3, 5).iter().map(|digit| [(1, 1), (0, 0), (65_535, 65_535)][*digit]).collect();
        let program = Program { facts, layers: vec![1, 1], rules: vec![rule(5, &[yes(0)])] };
        for layers in 0..9 {
            let layers = digits(layers, 3, 2).iter().map(|digit| [1, 0, 255][*digit]).collect();
            files.extend(rule_faults(&Program { layers, ..program.clone() }));
        }
    }
    files
}

fn digits(mut number: usize, base: usize, count: usize) -> Vec<usize> {
    let mut digits = Vec::new();
    for _ in 0..count {
        digits.push(number % base);
        number /= base;
    }
    digits
}

/// The file as it is, with a wrong offset, with a byte more or less, and with a rule that gives 9, 10 or 11.
fn rule_faults(program: &Program) -> Vec<Vec<u8>> {
    let whole = encode(program);
    let mut moved = whole.clone();
    moved[8] += 1;
    let longer = [&whole[..], &[0]].concat();
    let shorter = whole[..whole.len() - 1].to_vec();
    let mut files = vec![whole, moved, longer, shorter];
    for faulty in [rule(5, &[0; 17]), rule(4, &[]), rule(5, &[yes(7)]), rule(5, &[not(5)])] {
        files.push(encode(&Program { rules: vec![faulty], ..program.clone() }));
    }
    files
}

/// One rule with every mix of stated length, head and literals, followed by every kind of rest.
pub fn rule_mixes() -> Vec<Vec<u8>> {
    let mut files = Vec::new();
    for stated in [0, 1, 2, 3, 16, 17, 18, 256, 65_535] {
        for head in [3, 4, 1, 0, 5, 65_535] {
            for first in literals() {
                for second in literals() {
                    for rest in rests() {
                        files.push(rule_mix(&[head, stated, first, second], &rest));
                    }
                }
            }
        }
    }
    files
}

/// For a head in layer 1, with atoms 0 to 4 in layers 0, 0, 1, 1, 2: sound ones, unknown ones, and layer breakers.
fn literals() -> [u16; 8] {
    [yes(0), not(1), yes(2), yes(5), not(5), 65_535, not(2), yes(4)]
}

/// Bytes behind the rule: none, too few for a header, sound rules, faulty ones, bytes too many.
fn rests() -> [Vec<u8>; 7] {
    [vec![], vec![3], vec![3, 0, 17], vec![3, 0, 0, 0], vec![9, 0, 0, 0], vec![3, 0, 17, 0], vec![3, 0, 0, 0, 0]]
}

/// Two rules are stated, so that the rest is the second.
fn rule_mix(numbers: &[u16], rest: &[u8]) -> Vec<u8> {
    let facts = vec![(1, 1), (1, 1)];
    let mut file = encode(&Program { facts, layers: vec![1, 1, 2], rules: vec![] });
    set2(&mut file, 22, 2);
    for number in numbers {
        push2(&mut file, *number);
    }
    file.extend(rest);
    file
}

/// Many literals of which two are faulty, at every two places, in every mix of 10 and 11.
pub fn two_faulty_literals() -> Vec<Vec<u8>> {
    let mut files = Vec::new();
    for first in 0..16 {
        for second in 0..16 {
            for faults in [[yes(5), not(2)], [not(2), yes(5)], [not(5), yes(4)], [yes(4), not(5)]] {
                let mut faulty = rule(3, &[yes(0); 16]);
                faulty.body[first] = faults[0];
                faulty.body[second] = faults[1];
                let rules = vec![rule(2, &[]), faulty];
                files.push(encode(&Program { facts: vec![(1, 1); 2], layers: vec![1, 1, 2], rules }));
            }
        }
    }
    files
}

/// A faulty rule of each kind before and behind another of each kind, among sound ones.
pub fn two_faulty_rules() -> Vec<Vec<u8>> {
    let kinds = [
        rule(2, &[yes(0), not(1)]),
        rule(2, &[yes(0); 17]),
        rule(1, &[]),
        rule(5, &[]),
        rule(2, &[yes(5)]),
        rule(2, &[not(3)]),
        rule(2, &[yes(4)]),
    ];
    let mut files = Vec::new();
    for first in &kinds {
        for second in &kinds {
            for sound in 0..3 {
                let mut rules = vec![kinds[0].clone(); sound];
                rules.extend([first.clone(), kinds[0].clone(), second.clone()]);
                let whole = encode(&Program { facts: vec![(1, 1); 2], layers: vec![1, 1, 2], rules });
                files.push(whole[..whole.len() - 1].to_vec());
                files.push([&whole[..], &[0]].concat());
                files.push(whole);
            }
        }
    }
    files
}

/// Every number as a head.
pub fn heads() -> Vec<Vec<u8>> {
    every_number(|_, number| rule(number, &[]))
}

/// Every number as a literal, in a rule of the last atom.
pub fn single_literals() -> Vec<Vec<u8>> {
    every_number(|program, number| rule(program.atoms().saturating_sub(1) as u16, &[number]))
}

/// All 65,536 numbers over a small program; over programs without facts, without derived atoms, without both,
/// and with all that there can be, the numbers about their edges.
fn every_number(make: impl Fn(&Program, u16) -> Rule) -> Vec<Vec<u8>> {
    let small = Program { facts: vec![(1, 1); 3], layers: vec![1, 3, 3, 2], rules: vec![] };
    let none = Program { facts: vec![], layers: vec![], rules: vec![] };
    let no_facts = Program { layers: vec![1; 7], ..none.clone() };
    let no_derived = Program { facts: vec![(1, 1); 7], ..none.clone() };
    let full = Program { facts: vec![(1, 1); 32], layers: vec![1; 512], rules: vec![] };
    let file = |program: &Program, number| encode(&Program { rules: vec![make(program, number)], ..program.clone() });
    let mut files: Vec<Vec<u8>> = (0..=65_535).map(|number| file(&small, number)).collect();
    let edges = (0..80).chain(540..550).chain(1_080..1_095).chain(32_765..32_770).chain(65_530..=65_535);
    for number in edges {
        files.extend([&none, &no_facts, &no_derived, &full].map(|program| file(program, number)));
    }
    files
}

/// Every layer of the head beside every layer of the literal's atom, plain and negated; and facts.
pub fn layer_pairs() -> Vec<Vec<u8>> {
    let mut files = Vec::new();
    for head in 0..=255 {
        for other in 0..=255 {
            for literal in [yes(1), not(1)] {
                let layers = vec![head, other];
                files.push(encode(&Program { facts: vec![], layers, rules: vec![rule(0, &[literal])] }));
            }
        }
        for literal in [yes(0), not(0), yes(1), not(1)] {
            let facts = vec![(1, 1)];
            files.push(encode(&Program { facts, layers: vec![head], rules: vec![rule(1, &[literal])] }));
        }
    }
    files
}

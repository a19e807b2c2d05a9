//! Programs for jobs: empty ones, odd ones, rings, chains, and functions that need many nodes.

use crate::support::program::{not, rule, yes, Program, Rule};

/// Weights differ from fact to fact; no call here looks at them, but a later question may.
fn program(facts: u16, layers: &[u8], rules: &[Rule]) -> Program {
    let facts = (0..facts).map(|fact| (fact % 3, 1 + fact % 2)).collect();
    Program { facts, layers: layers.to_vec(), rules: rules.to_vec() }
}

pub fn odd() -> Vec<Program> {
    [empty(), repeats(), unskipped(), rings(), gaps(), orders(), counts()].concat()
}

/// No facts, no derived atoms, no rules, no literals, in every mix.
pub fn empty() -> Vec<Program> {
    vec![
        program(0, &[], &[]),
        program(3, &[], &[]),
        program(0, &[1], &[]),
        program(2, &[255, 1], &[]),
        program(0, &[9], &[rule(0, &[])]),
        program(1, &[3], &[rule(1, &[])]),
        program(0, &[5, 5], &[rule(0, &[yes(1)]), rule(1, &[yes(0)])]),
        program(0, &[1, 2], &[rule(1, &[not(0)])]),
        program(0, &[2, 1], &[rule(0, &[not(1)]), rule(1, &[])]),
        program(1, &[2, 1, 1], &[rule(1, &[not(2), yes(0)]), rule(3, &[not(0)])]),
    ]
}

/// Rules and literals that come again, and atoms beside their own negations.
fn repeats() -> Vec<Program> {
    let twice = rule(2, &[yes(0), not(1), yes(0), not(1)]);
    vec![
        program(2, &[1, 1], &[twice.clone(), twice.clone(), rule(3, &[yes(2); 16]), twice]),
        program(2, &[1, 1], &[rule(2, &[yes(0), not(0)]), rule(3, &[not(1), yes(1), yes(0)])]),
        program(2, &[1, 2], &[rule(2, &[yes(1), yes(0)]), rule(3, &[yes(2), not(2)]), rule(3, &[not(2), yes(2)])]),
        program(1, &[1, 2, 3], &[rule(2, &[not(1)]), rule(3, &[not(2), not(2)]), rule(3, &[not(1), not(2)])]),
    ]
}

/// Bodies that are never early and sums that are always early: what follows is built all the same.
fn unskipped() -> Vec<Program> {
    let early_always = [rule(3, &[]), rule(3, &[not(0), yes(1)]), rule(3, &[yes(2), not(1)])];
    let both = [rule(3, &[yes(1)]), rule(3, &[not(1)]), rule(3, &[not(2), yes(0)]), rule(3, &[])];
    let either = [rule(3, &[yes(0)]), rule(3, &[yes(1), yes(2)]), rule(4, &[not(3), yes(3), not(2), not(1)])];
    vec![
        program(3, &[1], &[rule(3, &[yes(0), not(0), not(1), not(2)])]),
        program(3, &[1, 1], &[rule(3, &[yes(4), not(0), yes(1), not(2)])]),
        program(3, &[1], &early_always),
        program(3, &[7], &both),
        program(3, &[1, 2], &either),
        program(3, &[1, 2], &[rule(4, &[not(3), yes(0), not(1)]), rule(4, &[not(3), not(2)])]),
    ]
}

/// Rules that support each other: fed by nothing, by one fact, by several.
fn rings() -> Vec<Program> {
    let pair = [rule(2, &[yes(3)]), rule(3, &[yes(2), yes(1)])];
    let negated = rule(4, &[not(2), not(3), yes(0)]);
    let fed = rule(3, &[yes(0)]);
    let mut five: Vec<Rule> = (0..5).map(|at| rule(3 + at, &[yes(3 + (at + 1) % 5), yes(at % 3)])).collect();
    five.insert(2, rule(5, &[not(0), yes(1)]));
    let unfed = [&pair[..], &[negated.clone()]].concat();
    let fed = [&pair[..], &[negated, fed]].concat();
    let own = [rule(2, &[yes(2)]), rule(2, &[yes(2), yes(0)]), rule(2, &[yes(1), not(0)]), rule(2, &[yes(2), not(1)])];
    vec![
        program(2, &[1, 1, 2], &unfed),
        program(2, &[1, 1, 2], &fed),
        program(2, &[1], &own),
        program(3, &[1; 5], &five),
        program(1, &[4, 4], &[rule(1, &[yes(1)]), rule(2, &[yes(2), yes(1)]), rule(1, &[yes(0)])]),
    ]
}

/// Layers 1 and 255, unused numbers between, and atoms that are not in the order of their layers.
fn gaps() -> Vec<Program> {
    let crossing = [
        rule(2, &[not(3), yes(4), not(6)]),
        rule(3, &[yes(4), not(5), yes(6)]),
        rule(4, &[yes(0)]),
        rule(5, &[not(1)]),
        rule(6, &[yes(3)]),
        rule(6, &[not(4), yes(1)]),
    ];
    vec![
        program(1, &[255, 1], &[rule(1, &[not(2), yes(0)]), rule(2, &[not(0)])]),
        program(2, &[1, 255], &[rule(3, &[not(2), not(1)]), rule(2, &[yes(0), yes(1)])]),
        program(2, &[255, 7, 1, 2, 7], &crossing),
        program(2, &[254, 254, 253], &[rule(2, &[not(4)]), rule(4, &[yes(1)]), rule(3, &[yes(2), yes(0)])]),
    ]
}

/// Facts rising and falling, literals and rules of several atoms mixed, sides that are both new.
fn orders() -> Vec<Program> {
    let chosen = [rule(3, &[yes(0), yes(1)]), rule(3, &[not(0), yes(2)]), rule(4, &[not(3), not(1)])];
    let interleaved = [
        rule(5, &[yes(2), not(0)]),
        rule(4, &[yes(1), yes(3)]),
        rule(5, &[not(3), yes(4)]),
        rule(4, &[not(1), not(3)]),
        rule(6, &[not(5), not(4)]),
        rule(6, &[yes(5), yes(4), not(2)]),
    ];
    let falling = [rule(4, &[yes(3), not(2), yes(1), not(0)]), rule(4, &[not(3), yes(2), not(1), yes(0)])];
    let rising = [rule(4, &[not(0), yes(1), not(2), yes(3)]), rule(4, &[yes(0), not(1), yes(2), not(3)])];
    vec![
        program(3, &[1, 2], &chosen),
        program(4, &[1, 1, 2], &interleaved),
        program(4, &[1], &falling),
        program(4, &[1], &rising),
    ]
}

/// The majority of five facts, and the parity of five from layer to layer.
fn counts() -> Vec<Program> {
    let mut majority = Vec::new();
    for first in 0..5 {
        for second in 0..first {
            majority.extend((0..second).map(|third| rule(5, &[yes(second), yes(first), yes(third)])));
        }
    }
    majority.push(rule(6, &[not(5)]));
    vec![program(5, &[1, 2], &majority), parity(5)]
}

/// One atom for each fact, in a layer of its own: it holds where an odd number of the facts so far is on.
pub fn parity(facts: u16) -> Program {
    let mut rules = vec![rule(facts, &[yes(0)])];
    for fact in 1..facts {
        let (head, before) = (facts + fact, facts + fact - 1);
        rules.extend([rule(head, &[yes(before), not(fact)]), rule(head, &[not(before), yes(fact)])]);
    }
    let layers: Vec<u8> = (1..=facts as u8).collect();
    Program { facts: vec![(1, 1); facts.into()], layers, rules }
}

/// Each atom follows from the one before it in this order, the first from fact 0.
pub fn chain(order: &[u16]) -> Program {
    let mut rules = vec![rule(1 + order[0], &[yes(0)])];
    rules.extend(order.windows(2).map(|pair| rule(1 + pair[1], &[yes(1 + pair[0])])));
    program(1, &vec![1; order.len()], &rules)
}

/// Each atom in a layer of its own follows where the one before it does not hold.
pub fn negated_chain(atoms: u16) -> Program {
    let mut rules = vec![rule(2, &[yes(0), yes(1)])];
    rules.extend((1..atoms).map(|at| rule(2 + at, &[not(1 + at), yes(at % 2)])));
    let layers: Vec<u8> = (0..atoms as u8).map(|at| 5 + 3 * at).collect();
    program(2, &layers, &rules)
}

/// An atom in each layer, the highest first. Each holds where the one below it does not, every third only with a fact.
pub fn every_layer() -> Program {
    let mut rules = vec![rule(256, &[yes(0)])];
    for atom in 2..256 {
        let body = [not(atom + 1), yes(atom % 2)];
        rules.push(rule(atom, &body[..if atom % 3 == 0 { 2 } else { 1 }]));
    }
    program(2, &(1..=255).rev().collect::<Vec<u8>>(), &rules)
}

/// Fact i together with fact i + pairs, for some i. Each further pair doubles the nodes, since all the first facts
/// come before all the second ones.
pub fn pairs(pairs: u16) -> Program {
    let rules: Vec<Rule> = (0..pairs).map(|fact| rule(2 * pairs, &[yes(fact), yes(fact + pairs)])).collect();
    Program { facts: vec![(1, 1); usize::from(2 * pairs)], layers: vec![1], rules }
}

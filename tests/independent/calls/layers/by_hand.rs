//! Rule sets with their answers written out by hand.

use super::judge::{expected, Expected, ROOM};
use super::ladders;
use crate::file::Refusal;
use crate::support::checked::{same, Checked};
use crate::support::encode::encode;
use crate::support::program::{not, rule, yes, Program, Rule};
use crate::support::worked;

/// The layers of the derived atoms, or the refusal's number and detail.
pub type Answer = Result<Vec<u8>, (u32, u32)>;

/// The given layers are all 1, and say nothing.
pub fn program(facts: usize, derived: usize, rules: &[Rule]) -> Program {
    Program { facts: vec![(1, 1); facts], layers: vec![1; derived], rules: rules.to_vec() }
}

pub fn cases() -> Vec<(Program, Answer)> {
    [worked_files(), layers(), chains(), named(), ladders()].concat()
}

fn worked_files() -> Vec<(Program, Answer)> {
    vec![(worked::s(), Ok(vec![1, 1, 1, 2])), (worked::wet(), Ok(vec![1])), (worked::graph(), Ok(vec![1; 9]))]
}

fn layers() -> Vec<(Program, Answer)> {
    let ring = [rule(0, &[yes(1)]), rule(1, &[yes(2)]), rule(2, &[yes(0)])];
    let fed = [&ring[..], &[rule(1, &[not(3)])]].concat();
    let both = [rule(1, &[yes(0), not(0)])];
    let several = [rule(1, &[not(0)]), rule(2, &[not(1), yes(0)]), rule(3, &[yes(2)]), rule(3, &[])];
    vec![
        (program(0, 0, &[]), Ok(vec![])),
        (program(3, 0, &[]), Ok(vec![])),
        (program(0, 3, &[]), Ok(vec![1; 3])),
        (program(2, 3, &[]), Ok(vec![1; 3])),
        // An empty body, and a fact, plain and negated.
        (program(1, 2, &[rule(1, &[])]), Ok(vec![1, 1])),
        (program(1, 2, &[rule(1, &[yes(0)])]), Ok(vec![1, 1])),
        (program(1, 2, &[rule(1, &[not(0)])]), Ok(vec![1, 1])),
        (program(1, 2, &[rule(1, &[not(0)]), rule(2, &[not(1)])]), Ok(vec![1, 2])),
        // A negated atom with no rule, and one that holds always.
        (program(0, 2, &[rule(0, &[not(1)])]), Ok(vec![2, 1])),
        (program(0, 2, &[rule(0, &[not(1)]), rule(1, &[])]), Ok(vec![2, 1])),
        // Plain rings share a layer.
        (program(0, 1, &[rule(0, &[yes(0)])]), Ok(vec![1])),
        (program(0, 4, &ring), Ok(vec![1; 4])),
        (program(0, 4, &fed), Ok(vec![2, 2, 2, 1])),
        // Both plain and negated, and a body that can never hold.
        (program(0, 2, &both), Ok(vec![1, 2])),
        (program(1, 2, &[rule(1, &[yes(0), not(0), not(2)])]), Ok(vec![2, 1])),
        // The highest of several rules, and of several literals.
        (program(0, 4, &several), Ok(vec![1, 2, 3, 3])),
    ]
}

fn chains() -> Vec<(Program, Answer)> {
    let three = [rule(0, &[yes(1)]), rule(1, &[not(2)]), rule(2, &[yes(0)])];
    let even = [rule(0, &[not(1)]), rule(1, &[not(0)])];
    let dead = [rule(0, &[yes(1), yes(2), not(2)]), rule(1, &[not(0)])];
    let beside = [rule(0, &[yes(1), not(1)]), rule(1, &[yes(0)])];
    vec![
        (program(0, 1, &[rule(0, &[not(0)])]), Err((24, 0))),
        (program(5, 1, &[rule(5, &[not(5)])]), Err((24, 5))),
        (program(0, 1, &[rule(0, &[yes(0), not(0)])]), Err((24, 0))),
        (program(0, 2, &even), Err((24, 0))),
        (program(0, 3, &three), Err((24, 0))),
        (program(0, 3, &dead), Err((24, 0))),
        (program(0, 2, &beside), Err((24, 0))),
        // A negated link from a ring to another is on no chain.
        (program(0, 2, &[rule(0, &[yes(0), not(1)]), rule(1, &[yes(1)])]), Ok(vec![2, 1])),
    ]
}

/// Who is named.
fn named() -> Vec<(Program, Answer)> {
    // Atom 1 comes twice on any chain through 0.
    let eight = [rule(0, &[yes(1)]), rule(1, &[yes(0)]), rule(1, &[yes(2)]), rule(2, &[not(1)])];
    let beside = [rule(0, &[yes(1)]), rule(1, &[yes(0)]), rule(2, &[not(2)]), rule(1, &[not(2)])];
    vec![
        (program(0, 2, &[rule(0, &[not(1)]), rule(1, &[not(1)])]), Err((24, 1))),
        (program(0, 2, &[rule(1, &[yes(0), not(1)])]), Err((24, 1))),
        (program(0, 3, &eight), Err((24, 0))),
        (program(0, 3, &beside), Err((24, 2))),
        (program(2, 3, &[rule(4, &[not(4)]), rule(3, &[not(3)])]), Err((24, 3))),
    ]
}

fn ladders() -> Vec<(Program, Answer)> {
    let all = |steps: usize| Ok((1..=steps).map(|layer| layer as u8).collect());
    let mut chained = ladders::up(0, 300);
    chained.rules.push(rule(7, &[not(7)]));
    // The high layers have nothing to do with the chain.
    let mut apart = ladders::up(3, 301);
    apart.layers.push(1);
    apart.rules.push(rule(304, &[not(304)]));
    vec![
        (ladders::up(0, 254), all(254)),
        (ladders::up(0, 255), all(255)),
        (ladders::up(9, 255), all(255)),
        (ladders::up(0, 256), Err((37, 255))),
        (ladders::up(32, 256), Err((37, 287))),
        (ladders::up(0, 512), Err((37, 255))),
        (ladders::down(4, 256), Err((37, 4))),
        (ladders::down(0, 512), Err((37, 0))),
        (chained, Err((24, 7))),
        (apart, Err((24, 304))),
        (ladders::longest_chain(0), Err((24, 0))),
        (ladders::longest_chain(32), Err((24, 32))),
    ]
}

/// This program's own answers against those by hand.
pub fn agree() -> Checked {
    for (number, (program, answer)) in cases().into_iter().enumerate() {
        let got = match expected(&encode(&program), ROOM) {
            Expected::Layers(layers, _) => Ok(layers),
            Expected::Chain(_, atom) => Err((24, atom)),
            Expected::Refused(Refusal { number, detail }) => Err((number, detail)),
        };
        same(&format!("case {number} by hand"), got, answer)?;
    }
    Ok(cases().len())
}

//! Many facts, many nodes, many atoms and rules.

use super::chance::with_calls;
use super::drawn::rich;
use super::needed;
use crate::calls::engine::job::{close, run, update, Job};
use crate::calls::engine::memory::LARGEST;
use crate::calls::engine::programs::{chain, pairs, parity};
use crate::support::encode::encode;
use crate::support::legal::{legal, of_length, Shape};
use crate::support::program::{rule, yes, Program, Rule};
use crate::support::random::Random;

pub fn jobs() -> Vec<Job> {
    let mut jobs = vec![
        Job::new(LARGEST, &[run(1_000)], &parity(32)),
        Job::new(150, &[run(1_000), close(), update(50), run(0)], &parity(32)),
        Job::new(31, &[run(1)], &parity(32)),
    ];
    // With 12 pairs no size has room: 4,096 is the largest that is used.
    for size in [4_096, 4_097, 65_535] {
        jobs.push(Job::new(size, &[run(9), update(24), close()], &pairs(12)));
    }
    jobs.push(Job::new(LARGEST, &[run(9), update(0)], &pairs(10)));
    jobs.push(Job::new(2_100, &[run(9), close(), run(1)], &pairs(10)));
    jobs.extend(filled());
    jobs.extend(filled_to_the_last());
    jobs.push(many_updates());
    jobs.extend(largest_counts());
    jobs
}

/// Stores of hundreds and thousands of nodes that get full somewhere in the middle, and then take what still fits.
fn filled() -> Vec<Job> {
    let mut jobs = Vec::new();
    for (seed, size) in (0..).zip([200, 400, 800, 1_600]) {
        let mut random = Random::new(seed);
        let program = rich(12, 60, &mut random);
        jobs.push(with_calls(&program, size, &[run(1_000)], &mut random));
    }
    jobs
}

/// A store of the largest size, full to its last node, and one node too many for it.
fn filled_to_the_last() -> Vec<Job> {
    let program = with_facts(32, &rich(12, 70, &mut Random::new(2)));
    let missing = LARGEST - needed(&program);
    // Neither of these pairs is there yet, and each takes one node.
    let pairs = (12..32).flat_map(|second| (12..second).map(move |first| vec![yes(first), yes(second)]));
    let mut bodies: Vec<Vec<u16>> = pairs.take(missing + 1).collect();
    // The last node stands on the last but one, so that its number is a side, too.
    bodies[missing - 1] = [&bodies[missing - 2][..], &[yes(0)]].concat();
    let filled = with_last_layer(&program, &bodies[..missing]);
    let too_many = with_last_layer(&program, &bodies);
    [filled, too_many].map(|program| Job::new(LARGEST, &[run(1_000), close()], &program)).to_vec()
}

fn with_last_layer(program: &Program, bodies: &[Vec<u16>]) -> Program {
    let mut program = program.clone();
    for body in bodies {
        program.rules.push(rule(program.atoms() as u16, body));
        program.layers.push(255);
    }
    program
}

/// The same rules behind more facts, and with the last layer free.
fn with_facts(facts: u16, program: &Program) -> Program {
    let before = program.facts.len() as u16;
    let moved = |atom: u16| if atom < before { atom } else { atom + facts - before };
    let literal = |literal: &u16| 2 * moved(literal / 2) + literal % 2;
    let moved_rule = |one: &Rule| Rule { head: moved(one.head), body: one.body.iter().map(literal).collect() };
    Program {
        facts: vec![(1, 1); facts.into()],
        layers: program.layers.iter().map(|layer| *layer.min(&254)).collect(),
        rules: program.rules.iter().map(moved_rule).collect(),
    }
}

/// A chain that falls, of 256 atoms: 65,792 updates, more than two bytes can count.
fn many_updates() -> Job {
    Job::new(1, &[run(262_656)], &chain(&(0..256).rev().collect::<Vec<u16>>()))
}

/// All atoms and rules that a file can have, and the longest file.
fn largest_counts() -> Vec<Job> {
    let mut random = Random::new(8);
    let counts = Shape { facts: 32, derived: 512, rules: 2_048, body: (0, 2) };
    let longest = of_length(65_536, 508, 1_802, &mut random);
    vec![
        Job::new(LARGEST, &[run(700), run(3_000), close()], &legal(&counts, &mut random)),
        Job { size: 600, calls: vec![run(100), run(2_000)], file: encode(&longest) },
    ]
}

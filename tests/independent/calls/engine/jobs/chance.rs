//! Calls by chance on programs by chance, in stores that are often too small by a little.

use super::drawn::{plain, rich};
use super::needed;
use crate::calls::engine::calls::Engine;
use crate::calls::engine::job::{close, run, update, Call, Job};
use crate::calls::engine::layers;
use crate::calls::engine::memory::LARGEST;
use crate::calls::engine::session::Session;
use crate::support::program::Program;
use crate::support::random::Random;
use std::ops::Range;

/// Three jobs for each number.
pub fn jobs(numbers: Range<u64>) -> Vec<Job> {
    numbers.flat_map(in_orders).collect()
}

/// One program with calls in several orders and stores of several sizes.
fn in_orders(number: u64) -> Vec<Job> {
    let mut random = Random::new(number);
    let program = drawn(&mut random);
    let needed = needed(&program);
    let mut jobs = Vec::new();
    for _ in 0..3 {
        let size = size(program.facts.len(), needed, &mut random);
        jobs.push(with_calls(&program, size, &[], &mut random));
    }
    jobs
}

/// Mostly few facts, so that jobs are small and tables reach.
fn drawn(random: &mut Random) -> Program {
    match random.below(100) {
        0..=54 => plain(random.below(7), 8, random),
        55..=89 => rich(2 + random.below(6), 3 + random.below(6), random),
        90..=95 => rich(8 + random.below(5), 6, random),
        _ => plain(13 + random.below(20), 6, random),
    }
}

/// The sizes just below the one that a run needs come often, because faults sit there.
fn size(facts: usize, needed: usize, random: &mut Random) -> usize {
    match random.below(12) {
        0 | 1 => LARGEST,
        2 => facts.saturating_sub(random.below(2)),
        3 => needed + 1,
        4 | 5 => needed,
        6 => needed.saturating_sub(1),
        _ => facts + random.below(needed - facts + 1),
    }
}

/// These calls and then some by chance. They are chosen along the way, since most make sense in one layer only.
pub fn with_calls(program: &Program, size: usize, first: &[Call], random: &mut Random) -> Job {
    let mut job = Job::new(size, &[], program);
    let mut calls = first.to_vec();
    if let Ok(mut session) = Session::load(&job, Engine::HONEST) {
        for call in first {
            session.call(call);
        }
        let most = 4 + random.below(20);
        let mut after_finish = 0;
        while calls.len() < most && after_finish < 2 {
            after_finish += usize::from(session.state.finished());
            let call = next_call(program, session.state.layer, random);
            session.call(&call);
            calls.push(call);
        }
    }
    if random.below(3) == 0 {
        calls.push(run(1_000));
    }
    job.calls = calls;
    job
}

fn next_call(program: &Program, layer: u32, random: &mut Random) -> Call {
    let atoms = layers::atoms(program, layer);
    match random.below(10) {
        0..=4 if !atoms.is_empty() => update(random.pick(&atoms) as u32),
        5 => update(random.below(program.atoms() + 2) as u32),
        6 | 7 => close(),
        _ => run(random.below(2 * atoms.len() + 2) as u32),
    }
}

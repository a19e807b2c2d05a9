//! Odd programs, each in every way of going through them.

use super::sizes;
use crate::calls::engine::job::{close, run, update, Call, Job};
use crate::calls::engine::layers;
use crate::calls::engine::memory::FINISHED;
use crate::calls::engine::programs::odd;
use crate::support::program::Program;

pub fn jobs() -> Vec<Job> {
    let mut jobs = Vec::new();
    for program in odd() {
        for size in sizes(&program) {
            for calls in ways(&program) {
                jobs.push(Job::new(size, &calls, &program));
            }
        }
    }
    jobs
}

/// In one run; by updates, rising and falling; by runs about the size of a layer.
fn ways(program: &Program) -> [Vec<Call>; 4] {
    let (mut rising, mut falling, mut runs) = (vec![close()], Vec::new(), Vec::new());
    let mut layer = layers::above(program, 0);
    while layer != FINISHED {
        let updates: Vec<Call> = layers::atoms(program, layer).iter().map(|atom| update(*atom as u32)).collect();
        let atoms = updates.len() as u32;
        rising.extend([&updates[..], &[close()], &updates, &[close()]].concat());
        falling.extend(updates.iter().rev().chain(updates.iter().rev()).copied());
        falling.push(run(atoms));
        runs.extend([run(atoms - 1), run(atoms), run(atoms + 1)]);
        layer = layers::above(program, layer);
    }
    falling.extend([run(100), update(0)]);
    [vec![run(1_000)], rising, falling, runs]
}

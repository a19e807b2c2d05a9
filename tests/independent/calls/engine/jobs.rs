//! All jobs, in the order of the input. The same on every machine.

mod chains;
mod chance;
mod damaged;
pub mod drawn;
pub mod large;
mod numbers;
mod odd;
mod s;
mod worked;

use super::calls::Engine;
use super::job::{run, Job};
use super::memory::LARGEST;
use super::session::Session;
use crate::support::program::Program;

pub fn jobs() -> Vec<Job> {
    let groups = [
        s::jobs(),
        numbers::jobs(),
        worked::jobs(),
        odd::jobs(),
        chains::jobs(),
        chance::jobs(0..360),
        damaged::jobs(),
        large::jobs(),
    ];
    groups.concat()
}

/// Jobs by chance that are not in the input: a run of the library takes longer than one of this engine.
pub fn more_by_chance() -> Vec<Job> {
    chance::jobs(1_000..1_600)
}

/// A job that is broken off in its file ends the input: nothing is printed for it.
pub fn input(jobs: &[Job]) -> Vec<u8> {
    let mut bytes: Vec<u8> = jobs.iter().flat_map(Job::bytes).collect();
    let broken = jobs[0].bytes();
    bytes.extend(&broken[..broken.len() - 1]);
    bytes
}

/// Nodes in use after a run in a store of the largest size.
pub fn needed(program: &Program) -> usize {
    let job = Job::new(LARGEST, &[run(u32::MAX)], program);
    let mut session = Session::load(&job, Engine::HONEST).expect("room for the facts");
    session.call(&job.calls[0]);
    session.state.nodes as usize
}

/// From no room for the facts to one node more than a run needs; of many sizes some, those about the ends among them.
fn sizes(program: &Program) -> Vec<usize> {
    let (facts, needed) = (program.facts.len(), needed(program));
    let step = ((needed - facts) / 6).max(1);
    let mut sizes: Vec<usize> = (facts.saturating_sub(1)..needed).step_by(step).collect();
    sizes.extend([needed.saturating_sub(1), needed, needed + 1]);
    sizes.sort();
    sizes.dedup();
    sizes
}

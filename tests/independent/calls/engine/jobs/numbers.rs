//! The edges of a job's own numbers: sizes past the largest, calls past 2, budgets and atoms of more than two bytes.

use crate::calls::engine::job::{close, run, update, Call, Job};
use crate::calls::engine::programs::empty;
use crate::support::worked;

pub fn jobs() -> Vec<Job> {
    let mut jobs = Vec::new();
    for size in [4_095, 4_096, 4_097, 65_535] {
        jobs.push(Job::new(size, &[run(5), run(65_536), close()], &worked::s()));
    }
    for budget in [65_535, 65_536, 65_539, 262_656, u32::MAX] {
        jobs.push(Job::new(6, &[run(budget)], &worked::s()));
    }
    for what in [3, 128, 255] {
        let call = Call { what, number: 2 };
        jobs.push(Job::new(6, &[call, run(6), call, run(9), call], &worked::s()));
        jobs.push(Job::new(6, &[run(5), call, run(3), call], &worked::s()));
    }
    jobs.push(Job::new(6, &[Call { number: 65_535, ..close() }, update(65_538)], &worked::s()));
    for program in empty() {
        for size in 0..4 {
            jobs.push(Job::new(size, &[run(0), update(0), update(1), close(), run(1), close(), run(9)], &program));
        }
    }
    jobs
}

//! File S: every size, budgets in one run and in many, updates and closings in every order.

use crate::calls::engine::job::{close, run, update, Call, Job};
use crate::support::worked;

const SIZES: [usize; 9] = [0, 1, 2, 3, 4, 5, 6, 7, 4_096];

pub fn jobs() -> Vec<Job> {
    [budgets(), small_budgets(), closings(), every_order(), upper_layer(), atoms()].concat()
}

fn job(size: usize, calls: &[Call]) -> Job {
    Job::new(size, calls, &worked::s())
}

/// No call, one run, and one more after it.
fn budgets() -> Vec<Job> {
    let mut jobs: Vec<Job> = SIZES.iter().map(|size| job(*size, &[])).collect();
    for size in SIZES {
        for budget in 0..=10 {
            jobs.push(job(size, &[run(budget)]));
            jobs.push(job(size, &[run(budget), run(10 - budget)]));
        }
    }
    jobs
}

/// A budget of 1 or 2 never closes layer 1; one of 3 needs two runs for it.
fn small_budgets() -> Vec<Job> {
    let mut jobs = Vec::new();
    for size in &SIZES[2..] {
        for budget in 1..=6 {
            jobs.push(job(*size, &vec![run(budget); 8]));
        }
        jobs.push(job(*size, &[run(1), run(2), run(3), run(4), run(1), run(1), run(2), run(0)]));
    }
    jobs
}

/// After so many updates, twice.
fn closings() -> Vec<Job> {
    let mut jobs = Vec::new();
    for size in &SIZES[2..] {
        for budget in 0..=9 {
            jobs.push(job(*size, &[run(budget), close()]));
            jobs.push(job(*size, &[run(budget), close(), close(), run(2), close()]));
        }
    }
    jobs
}

/// Every sequence of four calls, so that each state on the way is the last of some job.
fn every_order() -> Vec<Job> {
    let calls = [update(2), update(3), update(4), update(5), close()];
    let mut jobs = Vec::new();
    for number in 0..625 {
        let sequence = [0, 1, 2, 3].map(|at| calls[number / 5usize.pow(at) % 5]);
        jobs.push(job([2, 3, 5][number % 3], &sequence));
    }
    jobs
}

/// The same with layer 1 closed, with and without room for atom 5.
fn upper_layer() -> Vec<Job> {
    let closed = [update(2), update(3), update(4), close()];
    let calls = [update(5), update(3), close(), run(1), run(2)];
    let mut jobs = Vec::new();
    for number in 0..125 {
        let sequence = [0, 1, 2].map(|at| calls[number / 5usize.pow(at) % 5]);
        for size in [5, 6] {
            jobs.push(job(size, &[&closed[..], &sequence].concat()));
        }
    }
    jobs
}

/// Facts, unknown atoms and atoms of other layers, in every layer and in the finished run.
fn atoms() -> Vec<Job> {
    let all: Vec<Call> = (0..=7).map(update).collect();
    let others: Vec<Call> = [8, 255, 544, 65_535, 65_538, 65_541, u32::MAX].map(update).to_vec();
    let mut jobs = Vec::new();
    for size in [2, 5, 6] {
        for budget in [0, 2, 6, 7, 8] {
            jobs.push(job(size, &[&[run(budget)], &all[..], &[run(0)]].concat()));
            jobs.push(job(size, &[&[run(budget)], &others[..], &[close()]].concat()));
            jobs.extend(all.iter().map(|one| job(size, &[run(budget), *one])));
        }
    }
    jobs
}

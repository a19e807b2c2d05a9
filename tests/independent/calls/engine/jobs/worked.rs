//! P9's file, and the graph of P11 and P12.

use super::{needed, sizes};
use crate::calls::engine::job::{close, run, update, Call, Job};
use crate::support::worked::{graph, path, wet};

pub fn jobs() -> Vec<Job> {
    let mut jobs = Vec::new();
    for size in 0..=needed(&wet()) + 1 {
        for budget in 0..=3 {
            jobs.push(Job::new(size, &[run(budget), close(), update(2)], &wet()));
        }
    }
    for size in sizes(&graph()) {
        jobs.push(Job::new(size, &[run(1_000)], &graph()));
        jobs.push(Job::new(size, &falling(), &graph()));
    }
    for budget in 0..=40 {
        jobs.push(Job::new(needed(&graph()), &[run(budget), close()], &graph()));
    }
    jobs
}

/// All paths, the last first, with a closing after each round.
fn falling() -> Vec<Call> {
    let mut round: Vec<Call> = (path(0, 0)..=path(2, 2)).rev().map(|atom| update(atom.into())).collect();
    round.push(close());
    [&round[..], &round, &round].concat()
}

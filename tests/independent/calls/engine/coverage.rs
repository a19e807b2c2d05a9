//! Whether the jobs meet all that they should, and how large they are.

use super::job::Job;
use super::jobs;
use crate::support::checked::{same, Checked};
use std::collections::HashMap;

/// A job and its text.
pub type Case = (Job, String);

/// Every answer of loading and of every call, more than once.
pub fn answers(cases: &[Case]) -> Checked {
    let mut met: HashMap<String, usize> = HashMap::new();
    for kind in cases.iter().flat_map(kinds) {
        *met.entry(kind).or_default() += 1;
    }
    let loads = (1..=12).map(|number| format!("load {number}")).chain(["load done".to_string()]);
    let runs = ["finished", "spent", "full"].map(|outcome| format!("run {outcome}"));
    let updates = ["updated", "refused 12", "refused 13", "refused 14"].map(|answer| format!("update {answer}"));
    let closings = ["closed", "refused 12", "refused 15", "refused 16"].map(|answer| format!("close {answer}"));
    let wanted: Vec<String> = loads.chain(runs).chain(updates).chain(closings).collect();
    match wanted.iter().find(|kind| met.get(*kind).map_or(0, |times| *times) < 10) {
        Some(kind) => Err(format!("{kind} is met too seldom: {met:?}")),
        None if met.len() > wanted.len() => Err(format!("answers that no call should give: {met:?}")),
        None => Ok(met.values().sum()),
    }
}

/// The answers of a job without their numbers, but for those of refusals.
fn kinds((job, text): &Case) -> Vec<String> {
    let mut lines = text.lines();
    let loaded: Vec<&str> = lines.next().unwrap_or_default().split(' ').collect();
    let load = match loaded[..] {
        ["refused", number, _] => number,
        ["full"] => "12",
        _ => "done",
    };
    let mut kinds = vec![format!("load {load}")];
    for (call, line) in job.calls.iter().zip(lines) {
        let words = if line.starts_with("refused") { 2 } else { 1 };
        let answer: Vec<&str> = line.split(' ').take(words).collect();
        let call = ["run", "update", "close"][usize::from(call.what.min(2))];
        kinds.push(format!("{call} {}", answer.join(" ")));
    }
    kinds
}

/// A store of the largest size with room for exactly what is built, and one node too few.
pub fn last_node(cases: &[Case]) -> Checked {
    let times = |outcome: &str| {
        let lines = cases.iter().flat_map(|(_, text)| text.lines());
        lines.filter(|line| line.starts_with(outcome) && line.ends_with(" 4096")).count()
    };
    same("finished and full with all nodes", (times("finished"), times("full")), (1, 1))?;
    Ok(2)
}

/// What the test program takes and gives.
pub fn sizes(cases: &[Case]) -> Checked {
    let jobs: Vec<Job> = cases.iter().map(|(job, _)| job.clone()).collect();
    let (input, output) = (jobs::input(&jobs).len(), cases.iter().map(|(_, text)| text.len()).sum::<usize>());
    if input > 700_000 || output > 1_500_000 || jobs.len() > 4_000 {
        return Err(format!("{} jobs, input of {input} bytes, output of {output}", jobs.len()));
    }
    Ok(jobs.len())
}

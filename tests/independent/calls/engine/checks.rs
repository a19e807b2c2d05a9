//! The engine's own tests, and its mutants. Each test gives the number of jobs or calls that it looked at.

use super::calls::{Engine, Forms};
use super::coverage::{self, Case};
use super::job::{Job, UPDATE};
use super::jobs::{jobs, more_by_chance};
use super::memory::LARGEST;
use super::mutant::{self, Mutant};
use super::session::text;
use super::tables;
use super::watch::{each_call, shown, small};
use super::{bounds, by_hand, fit_checks, meaning};
use crate::file::decode;
use crate::support::checked::{same, Checked};
use crate::support::report::Report;

pub fn check(report: &mut Report) {
    report.add("engine: file S by hand", by_hand::file_s());
    report.add("engine: P8", by_hand::five_nodes());
    report.add("engine: refusals by hand", by_hand::refusals());
    report.add("engine: other texts by hand", by_hand::others());
    report.add("engine: bytes by hand", by_hand::bytes());
    report.add("engine: what fits together", fit_checks::by_hand());
    report.add("engine: loading and the ends of memory", fit_checks::loading());
    report.add("engine: n * (n + 1) updates of reversed chains", bounds::reversed_chains());
    report.add("engine: rings that swing for ever", fit_checks::swinging());
    let (jobs, more) = (jobs(), more_by_chance());
    check_jobs(report, &jobs);
    let cases = with_texts(&jobs);
    report.add("engine: tables and diagrams agree", forms_agree(&cases));
    report.add("engine: never above the model, more jobs", meaning::never_above(&more));
    report.add("engine: tables and diagrams agree, more jobs", forms_agree(&with_texts(&more)));
    report.add("engine: every answer met", coverage::answers(&cases));
    report.add("engine: full at the last node", coverage::last_node(&cases));
    report.add("engine: sizes", coverage::sizes(&cases));
    for mutant in mutant::all() {
        report_mutant(report, mutant, &cases);
    }
}

fn with_texts(jobs: &[Job]) -> Vec<Case> {
    jobs.iter().map(|job| (job.clone(), text(job, Engine::HONEST))).collect()
}

fn check_jobs(report: &mut Report, jobs: &[Job]) {
    report.add("engine: never above the model", meaning::never_above(jobs));
    report.add("engine: refusals leave all as it was", refusals_leave_all(jobs));
    report.add("engine: full by a larger store", full_by_larger_store(jobs));
    report.add("engine: n * (n + 1) updates are enough", bounds::enough_updates(jobs));
    report.add("engine: a larger budget continues", bounds::larger_budgets(jobs));
    report.add("engine: a budget below the layer's size", bounds::too_small_budgets(jobs));
    report.add("engine: runs by single updates and closings", bounds::single_updates(jobs));
}

/// Two forms that have nothing in common give one text, so the diagrams may be trusted with 32 facts.
fn forms_agree(cases: &[Case]) -> Checked {
    let reached = |(job, _): &&Case| decode(&job.file).is_ok_and(|program| program.facts.len() <= tables::REACH);
    let diagrams = Engine { forms: Forms::Diagrams, ..Engine::HONEST };
    for (job, over_tables) in cases.iter().filter(reached) {
        same(&shown(job), &text(job, diagrams), over_tables)?;
    }
    Ok(cases.iter().filter(reached).count())
}

fn refusals_leave_all(jobs: &[Job]) -> Checked {
    each_call(jobs, |moment| {
        if moment.answer.refusal() == 0 {
            return Ok(());
        }
        same("state", moment.after.state, moment.before.state)?;
        same("memory", &moment.after.lent, &moment.before.lent)
    })
}

/// An update is full exactly where it takes more than N nodes in a store of the largest size, or is full there too.
fn full_by_larger_store(jobs: &[Job]) -> Checked {
    each_call(small(jobs), |moment| {
        if moment.call.what != UPDATE {
            return Ok(());
        }
        let mut larger = moment.before.clone();
        larger.lent.words.resize(LARGEST, 0);
        let full_there = larger.call(moment.call).refusal() == 12;
        let past = larger.state.nodes as usize > moment.before.lent.size();
        same("full", moment.answer.refusal() == 12, past || full_there)
    })
}

/// A mutant passes where one job's text shows it.
fn report_mutant(report: &mut Report, mutant: Mutant, cases: &[Case]) {
    let engine = Engine { mutant, ..Engine::HONEST };
    match cases.iter().position(|(job, honest)| text(job, engine) != *honest) {
        Some(number) => report.add(&format!("engine: mutant {mutant:?} shown by job {number}"), Ok(1)),
        None => report.add(&format!("engine: mutant {mutant:?}"), Err("no job shows it".to_string())),
    }
}

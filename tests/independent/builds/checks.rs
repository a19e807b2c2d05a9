//! What comes out for all scripts, held against other ways to the same answers, and whether the scripts meet all that
//! they should. Each check returns the number of scripts it looked at.

use super::mutant::{self, Mutant};
use super::play::{play, play_over, text, Ending, Played, FACTS, RESULTS};
use super::polynomial::Polynomial;
use super::script::{encode, Script, Step, AND, FACT, LARGEST, NOT, OR};
use super::scripts::{scripts, sum_of_parities, two_parities};
use super::table::{self, Table};
use super::{by_hand, diagram};
use crate::support::checked::{same, Checked};
use crate::support::random::Random;
use crate::support::report::Report;
use std::collections::BTreeSet;

type Case = (Script, Played);

pub fn check(report: &mut Report) {
    let case = |script: Script| (script.clone(), play(&script, Mutant::None));
    let cases: Vec<Case> = scripts().into_iter().map(case).collect();
    report.add("builds: P7", by_hand::listing());
    report.add("builds: texts by hand", by_hand::texts());
    report.add("builds: bytes by hand", by_hand::bytes());
    report.add("builds: the 1,024th result", by_hand::last_result());
    report.add("builds: all functions of few facts", by_hand::few_facts());
    report.add("builds: tables and polynomials agree", forms_agree(&cases));
    report.add("builds: rules and order of nodes", diagrams(&cases));
    report.add("builds: every choice leads where its results say", meanings(&cases));
    report.add("builds: nodes found by fixing facts", nodes(&cases));
    report.add("builds: parities of 32 facts", parities());
    report.add("builds: every ending met", endings(&cases));
    report.add("builds: sizes", sizes(&cases));
    for mutant in mutant::all() {
        report_mutant(report, mutant, &cases);
    }
}

/// Those that tables reach.
fn small(cases: &[Case]) -> impl Iterator<Item = &Case> {
    cases.iter().filter(|(script, _)| script.below(table::REACH))
}

/// Two forms that have nothing in common give one text, so the polynomials may be trusted with 32 facts.
fn forms_agree(cases: &[Case]) -> Checked {
    for (script, _) in small(cases) {
        let over_tables = play_over::<Table>(script, Mutant::None);
        same("played over polynomials", play_over::<Polynomial>(script, Mutant::None), over_tables)?;
    }
    Ok(small(cases).count())
}

fn diagrams(cases: &[Case]) -> Checked {
    for (_, played) in cases {
        diagram::obeys_rules(&played.nodes)?;
        diagram::in_listing_order(&played.nodes, &played.results)?;
    }
    Ok(cases.len())
}

/// All choices of 6 facts; of more facts some by chance.
fn meanings(cases: &[Case]) -> Checked {
    for (script, played) in cases {
        let mut random = Random::new(7);
        let few = script.below(table::REACH);
        for number in 0..1 << table::REACH {
            let choice = if few { number } else { random.draw() };
            let led = |result: &usize| diagram::holds(&played.nodes, *result, choice);
            let led: Vec<bool> = played.results.iter().map(led).collect();
            same("results that hold", led, truths(&script.steps[..played.results.len()], choice))?;
        }
    }
    Ok(cases.len())
}

/// Which results of valid instructions hold under a choice.
fn truths(steps: &[Step], choice: u64) -> Vec<bool> {
    let mut truths: Vec<bool> = Vec::new();
    for step in steps {
        let (x, y) = (usize::from(step.x), usize::from(step.y));
        truths.push(match step.op {
            FACT => choice >> x & 1 == 1,
            AND => truths[x] && truths[y],
            OR => truths[x] || truths[y],
            _ => !truths[x],
        });
    }
    truths
}

/// Document 01's own words for full: the different functions, not constant, got by fixing facts 0 to k - 1 of what
/// is built. Each of them has one node, and full are just those scripts whose next build would pass the size.
fn nodes(cases: &[Case]) -> Checked {
    for (script, Played { ending, results, nodes }) in small(cases) {
        let function = |number| Table::of(|choice| diagram::holds(nodes, number, choice));
        let functions: BTreeSet<Table> = (2..nodes.len() + 2).map(function).collect();
        same("functions of all numbers", functions.len(), nodes.len())?;
        same("functions of the nodes", functions, fixings(&script.steps[..results.len()]))?;
        let full = *ending == Ending::Full;
        let with_next = fixings(&script.steps[..results.len() + usize::from(full)]);
        same("nodes past the size", with_next.len() > script.size, full)?;
    }
    Ok(small(cases).count())
}

fn fixings(steps: &[Step]) -> BTreeSet<Table> {
    let rows: Vec<Vec<bool>> = (0..1 << table::REACH).map(|choice| truths(steps, choice)).collect();
    let function = |result: usize| Table::of(|choice| rows[choice as usize][result]);
    let built: BTreeSet<Table> = (0..steps.len()).map(function).collect();
    let mut fixed = BTreeSet::new();
    for function in built {
        for k in 0..=table::REACH {
            fixed.extend((0..1 << k).map(|lowest| Table::of(|choice| function.holds(choice >> k << k | lowest))));
        }
    }
    fixed.retain(|function| ![0, u64::MAX].contains(&function.0));
    fixed
}

/// By their numbers of choices, which are known without a diagram: half of all for a parity, a quarter for both.
fn parities() -> Checked {
    let conjunction = play(&two_parities(32), Mutant::None);
    let sum = play(&sum_of_parities(32), Mutant::None);
    let last =
        |played: &Played, back: usize| diagram::choices(&played.nodes, played.results[played.results.len() - back]);
    same("odd places, both", [2, 1].map(|back| last(&conjunction, back)), [1 << 31, 1 << 30])?;
    same("odd places, either, neither", [3, 2, 1].map(|back| last(&sum, back)), [1 << 31, 3 << 30, 1 << 30])?;
    Ok(2)
}

/// Full at every kind of instruction, bad ones of every kind, each more than once; and the long scripts.
fn endings(cases: &[Case]) -> Checked {
    let mut met: Vec<String> = Vec::new();
    for (script, played) in cases {
        let results = played.results.len();
        let next = script.steps.get(results).filter(|_| results < RESULTS);
        let fault = next.and_then(|step| fault(step, results));
        same("bad", played.ending == Ending::Bad, fault.is_some())?;
        same("done", played.ending == Ending::Done, next.is_none())?;
        met.push(format!("{:?} {}{}", played.ending, next.map_or(4, |step| step.op.min(4)), fault.unwrap_or_default()));
    }
    let bad_kinds = ["0 fact", "1 x", "1 y", "2 x", "2 y", "3 x", "4 op"].map(|kind| format!("Bad {kind}"));
    let full_kinds = [FACT, AND, OR, NOT].map(|op| format!("Full {op}"));
    for kind in bad_kinds.iter().chain(&full_kinds) {
        let times = met.iter().filter(|ending| *ending == kind).count();
        if times < 10 {
            return Err(format!("{kind} was met only {times} times"));
        }
    }
    let largest = cases.iter().filter(|(_, played)| played.nodes.len() == LARGEST).count();
    let longest = cases.iter().filter(|(_, played)| played.results.len() == RESULTS).count();
    same("full to the last node, with all results", (largest, longest), (1, 2))?;
    Ok(cases.len())
}

/// What is wrong with an instruction.
fn fault(step: &Step, results: usize) -> Option<&'static str> {
    let past = |number: u16| usize::from(number) >= results;
    match step.op {
        FACT => (step.x >= FACTS).then_some(" fact"),
        AND | OR | NOT if past(step.x) => Some(" x"),
        AND | OR if past(step.y) => Some(" y"),
        AND | OR | NOT => None,
        _ => Some(" op"),
    }
}

/// What the test program takes and gives.
fn sizes(cases: &[Case]) -> Checked {
    let scripts: Vec<Script> = cases.iter().map(|(script, _)| script.clone()).collect();
    let (input, output) = (encode(&scripts).len(), text(&scripts, Mutant::None).len());
    let fits = |script: &Script| script.size <= LARGEST && script.steps.len() <= 1_100;
    if input > 65_536 || output > 400_000 || !scripts.iter().all(fits) {
        return Err(format!("input of {input} bytes, output of {output}, or a script too large"));
    }
    Ok(cases.len())
}

/// A mutant passes where one script's text shows it.
fn report_mutant(report: &mut Report, mutant: Mutant, cases: &[Case]) {
    match cases.iter().position(|(script, played)| play(script, mutant) != *played) {
        Some(number) => report.add(&format!("builds: mutant {mutant:?} shown by script {number}"), Ok(1)),
        None => report.add(&format!("builds: mutant {mutant:?}"), Err("no script shows it".to_string())),
    }
}

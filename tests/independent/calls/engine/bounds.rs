//! What document 01 says of budgets, tried from the states of all jobs.

use super::answer::{Outcome, Ran};
use super::calls::Engine;
use super::job::{close, run, update, Job, RUN};
use super::layers;
use super::memory::FINISHED;
use super::programs::chain;
use super::session::{Answer, Session};
use super::watch::{each_call, each_state, small};
use crate::file::decode;
use crate::support::checked::{same, Checked};
use crate::support::program::Program;

fn ran(session: &mut Session, budget: u32) -> Ran {
    match session.call(&run(budget)) {
        Answer::Ran(ran) => ran,
        other => panic!("a run answers {other}"),
    }
}

fn program(session: &Session) -> Program {
    decode(session.file).expect("only loaded files have sessions")
}

/// Updates that surely bring a run to its end: n * (n + 1) for each layer of n atoms that is left.
fn enough(program: &Program, mut layer: u32) -> u32 {
    let mut sum = 0;
    while layer != FINISHED {
        let atoms = layers::atoms(program, layer).len() as u32;
        sum += atoms * (atoms + 1);
        layer = layers::above(program, layer);
    }
    sum
}

/// From any state that the calls gave back, the sum of n * (n + 1) gives finished or full.
pub fn enough_updates(jobs: &[Job]) -> Checked {
    each_state(small(jobs), |session| {
        let mut session = session.clone();
        let budget = enough(&program(&session), session.state.layer);
        let answer = ran(&mut session, budget);
        same("spent", answer.outcome == Outcome::SPENT, false)
    })
}

/// The last atom first: each round changes one atom, and one more round changes none.
pub fn reversed_chains() -> Checked {
    let longest = 40;
    for atoms in 1..=longest {
        let (rising, falling): (Vec<u16>, Vec<u16>) = ((0..atoms).collect(), (0..atoms).rev().collect());
        let atoms = u64::from(atoms);
        for (order, updates) in [(falling, atoms * (atoms + 1)), (rising, 2 * atoms)] {
            let job = Job::new(1, &[], &chain(&order));
            let mut session = Session::load(&job, Engine::HONEST).expect("room for one fact");
            let short = ran(&mut session.clone(), updates as u32 - 1);
            same("one update less", (short.outcome, short.updates), (Outcome::SPENT, updates - 1))?;
            let whole = ran(&mut session, 262_656);
            same("updates of a chain", (whole.outcome, whole.updates), (Outcome::FINISHED, updates))?;
        }
    }
    Ok(2 * usize::from(longest))
}

/// One more update, or the same end: nodes stay, and one place changes at most.
pub fn larger_budgets(jobs: &[Job]) -> Checked {
    let single_runs = small(jobs).filter(|job| job.calls.len() == 1 && job.calls[0].what == RUN);
    each_call(single_runs, |moment| {
        let mut shorter = (ran(&mut moment.before.clone(), 0), moment.before.clone());
        for budget in 1..50 {
            let mut session = moment.before.clone();
            let answer = ran(&mut session, budget);
            continues(&shorter, &answer, &session)?;
            shorter = (answer, session);
        }
        Ok(())
    })
}

fn continues((shorter, before): &(Ran, Session), answer: &Ran, after: &Session) -> Result<(), String> {
    if shorter.outcome != Outcome::SPENT {
        same("answer with more budget", answer, shorter)?;
        return same("memory with more budget", &after.lent, &before.lent);
    }
    let nodes = before.state.nodes as usize;
    same("nodes that stay", &after.lent.words[..nodes], &before.lent.words[..nodes])?;
    let places = before.lent.places.iter().zip(&after.lent.places);
    let changed = places.filter(|(before, after)| before != after).count();
    same("one place at most", changed <= 1, true)?;
    same("updates more", answer.updates - shorter.updates, u64::from(answer.outcome != Outcome::FULL))
}

/// However often it is run with fewer updates than the layer has atoms.
pub fn too_small_budgets(jobs: &[Job]) -> Checked {
    each_state(small(jobs), |session| {
        let mut session = session.clone();
        let layer = session.state.layer;
        let atoms = layers::atoms(&program(&session), layer).len() as u32;
        for _ in 0..3 {
            ran(&mut session, atoms.saturating_sub(1));
        }
        same("layer after small budgets", session.state.layer, layer)
    })
}

/// Every run of the jobs made again by single updates and closings, each from the memory that the last one left.
pub fn single_updates(jobs: &[Job]) -> Checked {
    each_call(small(jobs), |moment| {
        let Answer::Ran(answer) = moment.answer else { return Ok(()) };
        let mut session = moment.before.clone();
        let (outcome, made) = by_updates(&mut session, moment.call.number.into())?;
        same("run by updates", (outcome, made, session.state), (answer.outcome, answer.updates, answer.state))?;
        same("memory by updates", &session.lent, &moment.after.lent)
    })
}

fn by_updates(session: &mut Session, budget: u64) -> Result<(Outcome, u64), String> {
    let program = program(session);
    let mut made = 0;
    while !session.state.finished() {
        let before = session.lent.places.clone();
        for atom in layers::atoms(&program, session.state.layer) {
            if made == budget {
                return Ok((Outcome::SPENT, made));
            }
            if session.call(&update(atom as u32)).refusal() == 12 {
                return Ok((Outcome::FULL, made));
            }
            made += 1;
        }
        // A round updates each atom once, so one that changed did not change back.
        if session.lent.places == before {
            same("closing after a settled round", session.call(&close()).refusal(), 0)?;
        }
    }
    Ok((Outcome::FINISHED, made))
}

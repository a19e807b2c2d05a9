//! Plays a job call by call, and writes what `runs` must print.

use super::answer::{Outcome, Ran, Step};
use super::calls::Engine;
use super::job::{Call, Job, RUN, UPDATE};
use super::memory::{Lent, State, LARGEST, PLACES};
use super::mutant::Mutant;
use super::node::Node;
use crate::file::decode;
use std::fmt;

#[derive(Clone, Copy, Debug, PartialEq)]
pub enum Answer {
    Ran(Ran),
    Updated(Step),
    Closed(Step),
}

impl Answer {
    pub fn refusal(&self) -> u32 {
        match self {
            Answer::Ran(ran) => ran.refusal,
            Answer::Updated(step) | Answer::Closed(step) => step.refusal,
        }
    }
}

impl fmt::Display for Answer {
    fn fmt(&self, out: &mut fmt::Formatter) -> fmt::Result {
        let (done, step) = match self {
            Answer::Ran(ran) => {
                let outcome = match ran.outcome {
                    Outcome::REFUSED => return write!(out, "refused {} {}", ran.refusal, ran.detail),
                    Outcome::FINISHED => "finished",
                    Outcome::SPENT => "spent",
                    Outcome::FULL => "full",
                    Outcome(number) => return write!(out, "outcome {number}"),
                };
                return write!(out, "{outcome} {} {}", ran.updates, ran.state);
            }
            Answer::Updated(step) => ("updated", step),
            Answer::Closed(step) => ("closed", step),
        };
        match step.refusal {
            0 => write!(out, "{done} {}", step.state),
            number => write!(out, "refused {number} {}", step.detail),
        }
    }
}

/// A file, the memory lent for it, and the numbers that go along with each call.
#[derive(Clone)]
pub struct Session<'a> {
    engine: Engine,
    pub file: &'a [u8],
    pub lent: Lent,
    pub state: State,
}

impl<'a> Session<'a> {
    /// The memory is not cleared first: loading has to do that. A refused loading gives its answer.
    pub fn load(job: &'a Job, engine: Engine) -> Result<Session<'a>, Step> {
        let size = if engine.is(Mutant::LongStoreUsed) { job.size.into() } else { LARGEST.min(job.size.into()) };
        let mut lent = Lent { words: vec![0xA5A5_A5A5; size], places: vec![0xA5A5; PLACES] };
        let loaded = engine.load(&job.file, &mut lent);
        match loaded.refusal {
            0 => Ok(Session { engine, file: &job.file, lent, state: loaded.state }),
            _ => Err(loaded),
        }
    }

    pub fn call(&mut self, call: &Call) -> Answer {
        let Session { engine, file, lent, state } = self;
        let (answer, after) = match call.what {
            RUN => {
                let ran = engine.run(file, lent, *state, call.number.into());
                (Answer::Ran(ran), ran.state)
            }
            UPDATE => {
                let step = engine.update(file, lent, *state, call.number);
                (Answer::Updated(step), step.state)
            }
            _ => {
                let step = engine.close(file, lent, *state);
                (Answer::Closed(step), step.state)
            }
        };
        *state = after;
        answer
    }

    /// Nodes in use; places of the file's atoms; how much of the rest is not 0.
    pub fn memory(&self) -> String {
        let atoms = decode(self.file).map_or(0, |program| program.atoms());
        let nodes = (self.state.nodes as usize).min(self.lent.words.len());
        let (used, unused) = self.lent.words.split_at(nodes);
        let (places, others) = self.lent.places[..PLACES].split_at(atoms);
        let nodes: Vec<Node> = used.iter().map(|word| Node::of(*word)).collect();
        let words = unused.iter().filter(|word| **word != 0).count();
        let rest = words + others.iter().filter(|place| **place != 0).count();
        format!("{}\n{}\nrest {rest}\n", spaced(&nodes), spaced(places))
    }
}

fn spaced<T: fmt::Display>(items: &[T]) -> String {
    let texts: Vec<String> = items.iter().map(T::to_string).collect();
    texts.join(" ")
}

/// What `runs` prints for a job.
pub fn text(job: &Job, engine: Engine) -> String {
    let mut session = match Session::load(job, engine) {
        Ok(session) => session,
        Err(Step { refusal: 12, .. }) => return "full\n".to_string(),
        Err(Step { refusal, detail, .. }) => return format!("refused {refusal} {detail}\n"),
    };
    let mut text = format!("loaded {}\n", session.state);
    for call in &job.calls {
        text += &format!("{}\n", session.call(call));
    }
    text + &session.memory()
}

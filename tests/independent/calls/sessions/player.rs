//! One session's memory, and two sides that make each call on it.

use super::met::Met;
use crate::calls::engine::calls::Engine;
use crate::calls::host::{Answer, Call, Memory, Side};

pub struct Player<'a> {
    side: &'a dyn Side,
    met: &'a mut Met,
    pub memory: Memory,
    /// Calls so far, for the message.
    made: usize,
}

impl<'a> Player<'a> {
    pub fn new(side: &'a dyn Side, met: &'a mut Met, memory: Memory) -> Player<'a> {
        Player { side, met, memory, made: 0 }
    }

    /// For the next player to count on.
    pub fn into_met(self) -> &'a mut Met {
        self.met
    }

    /// Every field of the answer and every element of every array must be as the engine has it.
    pub fn call(&mut self, call: Call) -> Result<Answer, String> {
        let mut memory = self.memory.clone();
        let got = self.side.call(call, &mut memory);
        let before = self.memory.clone();
        let answer = Engine::HONEST.call(call, &mut self.memory)?;
        self.met.add(call, &answer);
        self.made += 1;
        let told = match got {
            Err(fault) => fault,
            Ok(got) if got != answer => format!("expected {answer:?} got {got:?}"),
            Ok(_) if memory != self.memory => different(&self.memory, &memory),
            Ok(_) => {
                self.memory.state = answer.state().unwrap_or(self.memory.state);
                return Ok(answer);
            }
        };
        Err(format!("{told}; {call:?}, call {} with {}", self.made, shown(&before)))
    }

    /// A call on changed memory; the session goes on as if it had not been made.
    pub fn aside(&mut self, changed: Memory, call: Call) -> Result<Answer, String> {
        let kept = std::mem::replace(&mut self.memory, changed);
        let answer = self.call(call);
        self.memory = kept;
        answer
    }
}

/// The first element that differs.
fn different(expected: &Memory, got: &Memory) -> String {
    let parts = [
        first("nodes", &expected.lent.words, &got.lent.words),
        first("places", &expected.lent.places, &got.lent.places),
        first("working numbers", &expected.numbers, &got.numbers),
        first("output", &expected.out, &got.out),
        first("file", &expected.file, &got.file),
        first("evidence", &expected.evidence, &got.evidence),
    ];
    parts.into_iter().flatten().next().unwrap_or("a length differs".to_string())
}

fn first<T: PartialEq + std::fmt::Debug>(what: &str, expected: &[T], got: &[T]) -> Option<String> {
    let at = expected.iter().zip(got).position(|(one, other)| one != other)?;
    Some(format!("{what}[{at}] expected {:?} got {:?}", expected[at], got[at]))
}

/// Enough to make the call again by hand, but for what is unused.
fn shown(memory: &Memory) -> String {
    let file: String = memory.file.iter().take(300).map(|byte| format!("{byte:02x}")).collect();
    let used = memory.lent.words.len().min(memory.state.nodes as usize).min(60);
    let words: Vec<String> = memory.lent.words[..used].iter().map(|word| format!("{word:x}")).collect();
    let places = &memory.lent.places[..memory.lent.places.len().min(24)];
    format!(
        "state {} of {} nodes [{}] {} places {places:?} {} numbers {} bytes out evidence {:?} file {file}",
        memory.state,
        memory.lent.words.len(),
        words.join(" "),
        memory.lent.places.len(),
        memory.numbers.len(),
        memory.out.len(),
        memory.evidence,
    )
}

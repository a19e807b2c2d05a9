//! Which answers the sessions met.

use crate::calls::host::{Answer, Call};
use std::collections::BTreeMap;

#[derive(Default)]
pub struct Met {
    /// By call and refusal; a run by its outcome, too.
    times: BTreeMap<String, usize>,
    pub calls: usize,
}

/// Every refusal that each call can give.
const WANTED: [(&str, &[u32]); 7] = [
    ("load", &[0, 1, 2, 3, 4, 5, 6, 7, 8, 9, 10, 11, 12, 36]),
    ("update", &[0, 12, 13, 14, 36]),
    ("close", &[0, 12, 15, 16, 36]),
    ("run", &[0, 36]),
    ("weight", &[0, 13, 19, 36]),
    ("given", &[0, 12, 13, 17, 18, 19, 20, 36]),
    ("listing", &[0, 13, 17, 21, 36]),
];

impl Met {
    pub fn add(&mut self, call: Call, answer: &Answer) {
        self.calls += 1;
        *self.times.entry(key(call.name(), answer.refusal())).or_default() += 1;
        if let Answer::Ran(ran) = answer {
            *self.times.entry(key("outcome", ran.outcome.0)).or_default() += 1;
        }
    }

    /// Sessions that hardly meet one of the answers would say little about it.
    pub fn every_answer(&self) -> Result<usize, String> {
        let calls = WANTED.iter().flat_map(|(call, numbers)| numbers.iter().map(|number| key(call, *number)));
        let mut wanted: Vec<String> = calls.collect();
        wanted.extend((0..4).map(|outcome| key("outcome", outcome)));
        match wanted.iter().find(|key| self.times.get(*key).copied().unwrap_or(0) < 8) {
            Some(key) => Err(format!("{key} is met too seldom: {:?}", self.times)),
            None if self.times.len() > wanted.len() => Err(format!("answers that no call gives: {:?}", self.times)),
            None => Ok(self.calls),
        }
    }
}

fn key(call: &str, number: u32) -> String {
    format!("{call} {number}")
}

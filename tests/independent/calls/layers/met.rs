//! The library beside this program, call by call, and what was met on the way.

use super::corpus::Ask;
use super::judge::expected;
use super::mutant::Mutant;
use super::side::Library;
use super::stand_in::StandIn;
use super::watch::{answered, Watch};
use crate::support::checked::Checked;

pub struct Met {
    library: Library,
    pub watch: Watch,
    /// Asks by the refusal's number; 0 is layers given.
    answers: [usize; 38],
    /// How often the honest stand-in was right, or what it got wrong first.
    pub stand_in: Checked,
}

/// Every answer that the call can give; 11, 12 and 36 are none.
const WANTED: [usize; 14] = [0, 1, 2, 3, 4, 5, 6, 7, 8, 9, 10, 21, 24, 37];

impl Met {
    pub fn new() -> Met {
        Met { library: Library::default(), watch: Watch::new(), answers: [0; 38], stand_in: Ok(0) }
    }

    /// Goes through the whole group also where an answer is wrong, so that a fault of the library does not hide
    /// mutants; only the first is told.
    pub fn group(&mut self, name: &str, asks: impl Iterator<Item = Ask>) -> Checked {
        let (mut number, mut first) = (0, None);
        for ask in asks {
            let place = || format!("{name}, ask {number}");
            if let Err(told) = self.ask(&ask, place) {
                first.get_or_insert_with(|| format!("{}: {told}; {}", place(), shown(&ask)));
            }
            number += 1;
        }
        first.map_or(Ok(number), Err)
    }

    /// Two calls with different outputs before them: a byte that is written shows in one of them.
    fn ask(&mut self, ask: &Ask, place: impl Fn() -> String) -> Result<(), String> {
        let expected = expected(&ask.file, ask.room);
        self.answers[expected.number() as usize] += 1;
        let before: Vec<u8> = (0..ask.room).map(|at| (at * 37 + at / 256 * 11 + 170) as u8).collect();
        let turned: Vec<u8> = before.iter().map(|byte| !byte).collect();
        self.watch.look(ask, &expected, &before, &place);
        if let Ok(asked) = self.stand_in {
            let judged = answered(&StandIn(Mutant::None), ask, &expected, &before);
            let told = |told| format!("{}: {told}; {}", place(), shown(ask));
            self.stand_in = judged.map(|()| asked + 1).map_err(told);
        }
        answered(&self.library, ask, &expected, &before)?;
        answered(&self.library, ask, &expected, &turned)
    }

    /// Files that hardly meet one of the answers would say little about it.
    pub fn every_answer(&self) -> Checked {
        match WANTED.into_iter().find(|number| self.answers[*number] < 100) {
            Some(number) => Err(format!("refusal {number} was met only {} times", self.answers[number])),
            None => Ok(self.answers.iter().sum()),
        }
    }
}

fn shown(ask: &Ask) -> String {
    let bytes: String = ask.file.iter().take(200).map(|byte| format!("{byte:02x}")).collect();
    let cut = if ask.file.len() > 200 { ".." } else { "" };
    format!("output of {} bytes, file of {} bytes {bytes}{cut}", ask.room, ask.file.len())
}

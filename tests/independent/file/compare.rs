//! The library beside this program, file by file.

use crate::file;
use crate::file::boundary::{self, Counts};
use crate::file::corpus::Group;
use crate::file::mutants::{Mutant, Watch};
use crate::support::checked::Checked;

/// What the comparisons met on the way.
pub struct Met {
    pub watch: Watch,
    /// Files by the refusal's number; 0 is accepted.
    answers: [usize; 12],
}

impl Met {
    pub fn new() -> Met {
        Met { watch: Watch::new(), answers: [0; 12] }
    }

    /// Goes through the whole group also where a file differs, so that a fault of the library does not hide
    /// mutants; only the first difference is told.
    pub fn group(&mut self, group: Group) -> Checked {
        let mut number = 0;
        let mut first = None;
        for file in group.files {
            let expected = file::counts(&file, Mutant::None);
            self.answers[expected.refusal as usize] += 1;
            let answer = boundary::read(&file);
            if let Ok(got) = answer {
                self.watch.look(&file, &got, || format!("{}, file {number}", group.name));
            }
            if answer != Ok(expected) {
                first.get_or_insert_with(|| differs(&file, number, &expected, &answer));
            }
            number += 1;
        }
        first.map_or(Ok(number), Err)
    }

    /// A corpus that hardly meets one of the answers would say little about it.
    pub fn every_answer(&self) -> Checked {
        match self.answers.iter().position(|files| *files < 100) {
            Some(number) => Err(format!("refusal {number} was met only {} times", self.answers[number])),
            None => Ok(self.answers.iter().sum()),
        }
    }
}

/// NULL with length 0 is a file of no bytes.
pub fn null() -> Checked {
    let expected = file::counts(&[], Mutant::None);
    let got = boundary::read_null();
    if got == expected {
        Ok(1)
    } else {
        Err(format!("expected {expected} got {got}"))
    }
}

fn differs(file: &[u8], number: usize, expected: &Counts, answer: &Result<Counts, String>) -> String {
    let shown: String = file.iter().take(200).map(|byte| format!("{byte:02x}")).collect();
    let cut = if file.len() > 200 { ".." } else { "" };
    let got = answer.as_ref().map_or_else(String::clone, Counts::to_string);
    format!("file {number} of {} bytes {shown}{cut} expected {expected} got {got}", file.len())
}

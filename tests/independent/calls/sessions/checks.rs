//! The sessions' tests for the gate, and the mutants that they must find out.

use super::draw::Kind;
use super::large;
use super::met::Met;
use super::play::play;
use super::worked;
use crate::calls::engine::calls::Engine;
use crate::calls::engine::mutant::{self, Mutant};
use crate::calls::host::{Library, Side};
use crate::support::checked::Checked;
use crate::support::report::Report;
use std::panic::{catch_unwind, set_hook, take_hook, AssertUnwindSafe};

/// Names and numbers of sessions at scale 1.
pub const GROUPS: [(&str, Kind, u64); 5] = [
    ("few facts", Kind::Few, 400),
    ("many facts", Kind::Many, 60),
    ("long memory", Kind::Long, 40),
    ("damage", Kind::Harmed, 400),
    ("questions", Kind::Asked, 300),
];

pub fn check(report: &mut Report, scale: u64) {
    let (library, mut met) = (Library::default(), Met::default());
    report.add("worked: S, P1 to P7", worked::file_s(&library, &mut met));
    report.add("worked: S with five nodes, P8", worked::five_nodes(&library, &mut met));
    report.add("worked: P9 to P12", worked::others(&library, &mut met));
    for (name, kind, sessions) in GROUPS {
        report.add(&format!("sessions: {name}"), group(kind, 0..sessions * scale, &library, &mut met));
    }
    report.add("sessions: large stores", large::jobs(&library, &mut met));
    report.add("sessions: largest weights", large::largest_weights(&library, &mut met));
    report.add("sessions: every answer met", met.every_answer());
    check_mutants(report);
}

/// Goes through all sessions also where one differs, so that a fault of the library does not look like an answer that
/// is met too seldom; only the first difference is told. Gives the number of calls that were compared.
pub fn group(kind: Kind, numbers: std::ops::Range<u64>, side: &dyn Side, met: &mut Met) -> Checked {
    let before = met.calls;
    let mut first = None;
    for number in numbers {
        if let Err(told) = play(kind, number, side, met) {
            first.get_or_insert(told);
        }
    }
    first.map_or(Ok(met.calls - before), Err)
}

/// A mutant that reads what does not fit may fall over in a session; the screen need not say so.
fn check_mutants(report: &mut Report) {
    let hook = take_hook();
    set_hook(Box::new(|_| {}));
    let shown: Vec<(Mutant, Option<String>)> =
        mutant::asked().into_iter().map(|mutant| (mutant, shown_by(mutant))).collect();
    set_hook(hook);
    for (mutant, place) in shown {
        match place {
            Some(place) => report.add(&format!("sessions: mutant {mutant:?} shown by {place}"), Ok(1)),
            None => report.add(&format!("sessions: mutant {mutant:?}"), Err("no session shows it".to_string())),
        }
    }
}

fn shown_by(mutant: Mutant) -> Option<String> {
    let engine = Engine { mutant, ..Engine::HONEST };
    let most = GROUPS.iter().map(|(_, _, sessions)| *sessions).max()?;
    let sessions = (0..most).flat_map(|number| GROUPS.map(|(_, kind, sessions)| (kind, number, sessions)));
    for (kind, number, _) in sessions.filter(|(_, number, sessions)| number < sessions) {
        let played = catch_unwind(AssertUnwindSafe(|| play(kind, number, &engine, &mut Met::default())));
        match played {
            Ok(Err(_)) => return Some(format!("{kind:?} {number}")),
            // A mutant that falls over shows nothing: only a difference does.
            Ok(Ok(())) | Err(_) => {}
        }
    }
    None
}

//! The tests of request L4 for the gate, and the mutants that they must find out.

use super::corpus::{self, Ask};
use super::met::Met;
use super::mutant::Mutant;
use super::web::Web;
use super::{brute, by_hand, ladders, search, text};
use crate::support::checked::{same, Checked};
use crate::support::report::Report;
use std::panic::{set_hook, take_hook};

pub fn check(report: &mut Report, scale: u64) {
    check_self(report);
    let mut met = Met::new();
    // A mutant may fall over; the screen need not say so.
    let hook = take_hook();
    set_hook(Box::new(|_| {}));
    for group in corpus::groups(scale) {
        let asks = group.files.enumerate().map(|(number, file)| Ask { file, room: corpus::room(number) });
        report.add(&format!("layers: {}", group.name), met.group(group.name, asks));
    }
    report.add("layers: every output length", met.group("every output length", corpus::every_room()));
    set_hook(hook);
    report.add("layers: every answer met", met.every_answer());
    report_mutants(report, met);
}

fn check_self(report: &mut Report) {
    report.add("layers, self: answers by hand", by_hand::agree());
    report.add("layers, self: every set of links among two atoms, by brute force", brute::every_link());
    report.add("layers, self: tiny programs, by brute force", brute::tiny());
    report.add("layers, self: the longest shortest chain", longest_chain());
    report.add("layers, self: the judge of texts", text::check());
}

fn longest_chain() -> Checked {
    for facts in [0, 32] {
        let web = Web::of(&ladders::longest_chain(facts), Mutant::None);
        same("rules of a shortest chain", search::chain(&web, facts, true).len(), 1_023)?;
    }
    Ok(2)
}

/// A mutant passes where one ask showed it; the honest stand-in where none did.
fn report_mutants(report: &mut Report, met: Met) {
    report.add("layers: the honest stand-in is right", met.stand_in);
    for (mutant, place) in met.watch.shown {
        report.add(&format!("layers: mutant {mutant:?} shown by {place}"), Ok(1));
    }
    for mutant in met.watch.hidden {
        report.add(&format!("layers: mutant {mutant:?}"), Err("nothing asked shows it".to_string()));
    }
}

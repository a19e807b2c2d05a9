//! The independent test program: written from documents 01 and 02 and reach.h alone, it shares no line with the
//! library.
//!
//!     rustc --edition 2021 -O -D warnings tests/independent/main.rs \
//!         -L native=target/staticlib -l static=reach -o target/tests/independent
//!     target/tests/independent [SCALE]
//!
//! SCALE (1 where none is given) multiplies the number of files made by chance. The same scale gives the same
//! files on every machine.
//!
//!     target/tests/independent builds-input
//!     target/tests/independent builds-output
//!     target/tests/independent runs-input
//!     target/tests/independent runs-output
//!
//! write the input of the test programs `builds` and `runs` and what they must print, and test nothing.
//!
//!     target/tests/independent files [SCALE]
//!     target/tests/independent sessions [SCALE]
//!     target/tests/independent layers [SCALE]
//!
//! make a part of the tests: this program against itself and reach_check over the corpus, whole sessions through the
//! boundary, request L4. The parts share nothing, so they may run side by side.
//!
//!     target/tests/independent --long SEED [SESSIONS]
//!     target/tests/independent layers-judge FILE TEXT
//!
//! The first plays sessions through the boundary until stopped, or so many, and prints how far it is and all that
//! differs. The second ends with status 0 if TEXT holds what the program `layers` may print for the program file FILE,
//! else it says why not and ends with 1.

mod builds;
mod calls;
mod file;
mod meaning;
mod support;

use calls::{engine, layers, sessions};
use file::compare::{self, Met};
use file::corpus;
use meaning::paper;
use std::io::Write;
use std::process::exit;
use support::report::Report;

fn main() {
    match std::env::args().nth(1).as_deref() {
        Some("builds-input") => print(&builds::input()),
        Some("builds-output") => print(builds::output().as_bytes()),
        Some("runs-input") => print(&engine::input()),
        Some("runs-output") => print(engine::output().as_bytes()),
        Some("--long") => long(),
        Some("files") => test(&[check_files], number(2, 1)),
        Some("sessions") => test(&[sessions::check], number(2, 1)),
        Some("layers") => test(&[layers::check], number(2, 1)),
        Some("layers-judge") => judge_layers(),
        _ => test(&[check_files, sessions::check, layers::check], number(1, 1)),
    }
}

fn print(bytes: &[u8]) {
    let mut out = std::io::stdout();
    if let Err(fault) = out.write_all(bytes).and_then(|()| out.flush()) {
        eprintln!("not written: {fault}");
        exit(2);
    }
}

/// A part of the tests, told to a report at a scale.
type Part = fn(&mut Report, u64);

fn test(parts: &[Part], scale: u64) {
    let mut report = Report::default();
    for part in parts {
        part(&mut report, scale);
    }
    exit(if report.finish() { 0 } else { 1 });
}

/// This program against itself, then reach_check over the corpus.
fn check_files(report: &mut Report, scale: u64) {
    check_self(report);
    let mut met = Met::new();
    report.add("library: NULL of length 0", compare::null());
    for group in corpus::groups(scale) {
        let name = format!("library: {}", group.name);
        report.add(&name, met.group(group));
    }
    report.add("corpus: every refusal met", met.every_answer());
    report_mutants(report, met);
}

fn scale(text: &str) -> u64 {
    text.parse().unwrap_or_else(|_| {
        eprintln!("a whole number is needed, not {text}");
        exit(2);
    })
}

fn judge_layers() {
    let name = |at: usize| std::env::args().nth(at).unwrap_or_default();
    if let Err(told) = layers::judge_files(&name(2), &name(3)) {
        eprintln!("{told}");
        exit(1);
    }
}

/// An argument of the command line.
fn number(at: usize, default: u64) -> u64 {
    std::env::args().nth(at).map_or(default, |text| scale(&text))
}

fn long() {
    exit(if sessions::long(number(2, 1), number(3, u64::MAX)) { 0 } else { 1 });
}

fn check_self(report: &mut Report) {
    report.add("self: file S", paper::file_s());
    report.add("self: worked weights", paper::weights());
    report.add("self: edges", paper::edges());
    report.add("self: refusals by hand", paper::refusals());
    report.add("self: read after writing", paper::round_trip());
    report.add("self: written after reading", paper::read_and_written());
    report.add("self: totals by reader and model", paper::totals_agree());
    builds::check(report);
    engine::check(report);
}

/// A mutant passes where one file showed it.
fn report_mutants(report: &mut Report, met: Met) {
    for (mutant, place) in met.watch.shown {
        report.add(&format!("mutant {mutant:?} shown by {place}"), Ok(1));
    }
    for mutant in met.watch.hidden {
        report.add(&format!("mutant {mutant:?}"), Err("no file of the corpus shows it".to_string()));
    }
}

//! Texts and bytes worked out on paper: this engine must give them before its text may judge the library.

use super::calls::Engine;
use super::job::{close, run, update, Call, Job};
use super::programs::{empty, pairs};
use super::session::text;
use crate::support::checked::{same, Checked};
use crate::support::program::Program;
use crate::support::worked::{s, wet};

/// The two facts of S with what layer 1 adds, and with all.
const LAYER_1: [&str; 3] = ["0/0/1 1/0/1 0/0/3", "2 3 2 4 4 0", "rest 0"];
const ALL: [&str; 3] = ["0/0/1 1/0/1 0/0/3 1/1/0 0/1/5 0/0/5", "2 3 2 4 4 7", "rest 0"];

fn expect(program: &Program, size: usize, calls: &[Call], answers: &[&str], memory: &[&str]) -> Result<(), String> {
    let lines = [answers, memory].concat();
    let expected: String = lines.iter().map(|line| format!("{line}\n")).collect();
    let job = Job::new(size, calls, program);
    same(&format!("size {size}, {calls:?}"), text(&job, Engine::HONEST), expected)
}

/// Eight updates and six nodes; 4,096 is no different from 6.
pub fn file_s() -> Checked {
    for size in [6, 4_096] {
        let expect = |calls: &[Call], answers: &[&str], memory: &[&str]| expect(&s(), size, calls, answers, memory);
        let loaded = "loaded 1 2";
        expect(&[run(8)], &[loaded, "finished 8 65535 6"], &ALL)?;
        expect(&[run(262_656)], &[loaded, "finished 8 65535 6"], &ALL)?;
        expect(&[run(7), run(1)], &[loaded, "spent 7 2 6", "finished 1 65535 6"], &ALL)?;
        expect(&[run(6), run(0), run(2)], &[loaded, "spent 6 2 3", "spent 0 2 3", "finished 2 65535 6"], &ALL)?;
        expect(&[run(5), close(), run(0)], &[loaded, "spent 5 1 3", "closed 2 3", "spent 0 2 3"], &LAYER_1)?;
        expect(&[], &[loaded], &["0/0/1 1/0/1", "2 3 0 0 0 0", "rest 0"])?;
    }
    Ok(12)
}

/// P8: with N = 5 the first update of atom 5 is refused with 12, however it comes about.
pub fn five_nodes() -> Checked {
    let expect = |size, calls: &[Call], answers: &[&str], memory: &[&str]| expect(&s(), size, calls, answers, memory);
    expect(5, &[run(100), update(5)], &["loaded 1 2", "full 6 2 3", "refused 12 0"], &LAYER_1)?;
    expect(5, &[run(6)], &["loaded 1 2", "spent 6 2 3"], &LAYER_1)?;
    let calls = [update(2), update(3), update(4), close(), update(5), close(), run(1), run(0)];
    let updated = ["loaded 1 2", "updated 1 2", "updated 1 3", "updated 1 3", "closed 2 3"];
    let full = ["refused 12 0", "refused 12 0", "full 0 2 3", "spent 0 2 3"];
    expect(5, &calls, &[&updated[..], &full].concat(), &LAYER_1)?;
    expect(3, &[run(7)], &["loaded 1 2", "full 6 2 3"], &LAYER_1)?;
    expect(2, &[run(7)], &["loaded 1 2", "full 1 1 2"], &["0/0/1 1/0/1", "2 3 2 0 0 0", "rest 0"])?;
    expect(1, &[run(7)], &["full"], &[])?;
    expect(0, &[], &["full"], &[])?;
    Ok(7)
}

/// Each refusal of updating and closing, and who comes first where two could.
pub fn refusals() -> Checked {
    let expect = |size, calls: &[Call], answers: &[&str], memory: &[&str]| expect(&s(), size, calls, answers, memory);
    let loaded = ["0/0/1 1/0/1", "2 3 0 0 0 0", "rest 0"];
    let atom_2 = ["0/0/1 1/0/1", "2 3 2 0 0 0", "rest 0"];
    let wrong = ["loaded 1 2", "refused 13 0", "refused 14 0", "refused 14 0", "refused 13 0"];
    expect(2, &[update(6), update(0), update(5), update(65_538)], &wrong, &loaded)?;
    // Atom 2 would change, atom 3 would not yet.
    let twice = ["loaded 1 2", "refused 15 2", "updated 1 2", "refused 15 2"];
    expect(2, &[close(), update(3), close()], &twice, &loaded)?;
    // Atom 3 would change, but has no room for it: 12, not 15.
    let calls = [update(2), update(4), close()];
    expect(2, &calls, &["loaded 1 2", "updated 1 2", "updated 1 2", "refused 12 0"], &atom_2)?;
    expect(3, &calls, &["loaded 1 2", "updated 1 2", "updated 1 2", "refused 15 3"], &atom_2)?;
    let calls = [run(9), update(2), update(0), update(6), close(), run(0)];
    let refused = ["refused 14 0", "refused 14 0", "refused 13 0", "refused 16 0"];
    let answers = [&["loaded 1 2", "finished 8 65535 6"], &refused[..], &["finished 0 65535 6"]].concat();
    expect(6, &calls, &answers, &ALL)?;
    Ok(5)
}

/// P9's file, files without facts or derived atoms, and more nodes than the largest store has.
pub fn others() -> Checked {
    expect(&wet(), 3, &[run(2)], &["loaded 1 2", "finished 2 65535 3"], &["0/0/1 1/0/1 0/3/1", "2 3 4", "rest 0"])?;
    let empty = empty();
    let none = ["loaded 65535 0", "finished 0 65535 0", "refused 13 0", "refused 16 0"];
    expect(&empty[0], 0, &[run(5), update(0), close()], &none, &["", "", "rest 0"])?;
    expect(&empty[4], 0, &[run(5)], &["loaded 9 0", "finished 2 65535 0"], &["", "1", "rest 0"])?;
    expect(&empty[2], 0, &[run(5)], &["loaded 1 0", "finished 1 65535 0"], &["", "0", "rest 0"])?;
    let facts: Vec<String> = (0..24).map(|fact| format!("{fact}/0/1")).collect();
    let places: Vec<String> = (2..26).map(|place| format!("{place} ")).collect();
    let memory = [facts.join(" "), format!("{}0", places.concat()), "rest 0".to_string()];
    let memory: Vec<&str> = memory.iter().map(String::as_str).collect();
    expect(&pairs(12), 65_535, &[run(5)], &["loaded 1 24", "full 0 1 24"], &memory)?;
    Ok(5)
}

pub fn bytes() -> Checked {
    let call = Call { what: 255, number: 1 << 24 };
    let job = Job { size: 4_097, calls: vec![update(258), call], file: vec![7, 8, 9] };
    let expected = [1, 16, 2, 0, 3, 0, 0, 0, 1, 2, 1, 0, 0, 255, 0, 0, 0, 1, 7, 8, 9];
    same("bytes", job.bytes(), expected.to_vec())?;
    Ok(1)
}

//! This program against document 01: its reader, encoder and model must give what the paper prints before
//! they may judge the library. Each check returns the number of files it looked at.

use crate::file::boundary::Counts;
use crate::file::corpus::{chance, shapes, totals};
use crate::file::mutants::Mutant;
use crate::file::{counts, decode, Refusal};
use crate::meaning::model;
use crate::support::checked::{same, Checked};
use crate::support::encode::encode;
use crate::support::legal::{any_shape, legal, Shape};
use crate::support::program::{not, yes, Program};
use crate::support::random::Random;
use crate::support::worked;

/// File S as printed, both ways.
pub fn file_s() -> Checked {
    let bytes: Vec<u8> =
        worked::S_TEXT.split_whitespace().map(|byte| u8::from_str_radix(byte, 16).expect("two hex digits")).collect();
    same("length of S", bytes.len(), 74)?;
    same("S written", encode(&worked::s()), bytes.clone())?;
    same("S read", decode(&bytes), Ok(worked::s()))?;
    same("S counted", counts(&bytes, Mutant::None), accepted(2, 4, 20))?;
    Ok(1)
}

fn accepted(facts: u32, derived: u32, total: u64) -> Counts {
    Counts { refusal: 0, detail: 0, facts, derived, total }
}

/// P1 to P6 and P9 to P12, without the listing and the store.
pub fn weights() -> Checked {
    let s = worked::s();
    let all: Vec<u128> = (0..6).map(|atom| model::weight(&s, atom)).collect();
    same("weights of S", all, vec![5, 8, 5, 2, 2, 3])?;
    same("total of S", model::total(&s), 20)?;
    same("P5", model::given(&s, 2, &[not(3)]), (3, 18))?;
    same("P6", model::given(&s, 2, &[yes(3), not(3)]), (0, 0))?;
    let wet = worked::wet();
    same("P9", (model::weight(&wet, 2), model::total(&wet)), (44, 100))?;
    same("P10", model::given(&wet, 0, &[not(2)]), (0, 56))?;
    let graph = worked::graph();
    let path = |from, to| model::weight(&graph, usize::from(worked::path(from, to)));
    same("P11", (path(1, 2), model::total(&graph)), (10, 16))?;
    same("P12", path(2, 2), 4)?;
    Ok(3)
}

/// The edges that the paper gives with their answers.
pub fn edges() -> Checked {
    let answers: Vec<Counts> = shapes::worked().iter().map(|file| counts(file, Mutant::None)).collect();
    let refused = |refusal, detail| Counts { refusal, detail, ..accepted(0, 0, 0) };
    same("32 facts of 2/2", answers[3], refused(6, 0))?;
    let total = 3 << 62;
    same("31 of 2/2 and one of 1/2", answers[4..7].to_vec(), vec![accepted(32, 0, total); 3])?;
    same("body of 16", answers[7], accepted(1, 1, 2))?;
    same("body of 17", answers[8], refused(9, 0))?;
    let none = encode(&Program { facts: vec![], layers: vec![], rules: vec![] });
    same("no facts", counts(&none, Mutant::None), accepted(0, 0, 1))?;
    same("largest total of a file", totals::largest(), 18_446_744_073_709_551_600)?;
    Ok(7)
}

/// What is written is read again.
pub fn round_trip() -> Checked {
    let programs = 1_000;
    for number in 0..programs {
        let mut random = Random::new(number);
        let program = legal(&any_shape(&mut random), &mut random);
        same("read after writing", decode(&encode(&program)), Ok(program))?;
    }
    Ok(programs as usize)
}

/// And what is read is written again, byte for byte, where damage left it legal.
pub fn read_and_written() -> Checked {
    let mut accepted = 0;
    for number in 0..20_000 {
        let bytes = chance::damaged_file(number);
        if let Ok(program) = decode(&bytes) {
            accepted += 1;
            same("written after reading", encode(&program), bytes)?;
        }
    }
    if accepted < 1_000 {
        return Err(format!("only {accepted} damaged files were legal"));
    }
    Ok(accepted)
}

/// The reader multiplies, the model adds up choices: both must find one total. No atom weighs more.
pub fn totals_agree() -> Checked {
    let programs = 300;
    for number in 0..programs {
        let mut random = Random::new(number);
        let shape = Shape { facts: random.below(9), derived: random.below(6), rules: random.below(12), body: (0, 4) };
        let program = legal(&shape, &mut random);
        let total = model::total(&program);
        same("total", u128::from(counts(&encode(&program), Mutant::None).total), total)?;
        for atom in 0..program.atoms() {
            let with = model::given(&program, atom, &[]);
            same("weight given nothing", with, (model::weight(&program, atom), total))?;
            let without = model::given(&program, atom, &[not(atom as u16)]);
            same("weight given its own negation", without, (0, total - with.0))?;
        }
    }
    Ok(programs as usize)
}

/// A few refusals written out by hand from the paper's table and order.
pub fn refusals() -> Checked {
    let s = encode(&worked::s());
    let damaged = |at: usize, value: u8| {
        let mut bytes = s.clone();
        bytes[at] = value;
        decode(&bytes)
    };
    let refused = |number, detail| Err(Refusal { number, detail });
    same("27 bytes", decode(&s[..27]), refused(1, 0))?;
    same("layout 2", damaged(0, 2), refused(2, 0))?;
    same("33 facts", damaged(6, 33), refused(3, 0))?;
    same("offset 29", damaged(8, 29), refused(4, 0))?;
    same("layer 0 of atom 3", damaged(37, 0), refused(7, 3))?;
    same("last byte gone", decode(&s[..73]), refused(8, 4))?;
    same("one byte more", decode(&[&s[..], &[0]].concat()), refused(8, 5))?;
    same("rule 1 with 17 literals", damaged(48, 17), refused(9, 1))?;
    same("head 1 in rule 0", damaged(40, 1), refused(10, 0))?;
    same("atom 6 in rule 3", damaged(64, 12), refused(10, 3))?;
    same("not 2 for 2 in rule 2", damaged(56, 5), refused(11, 2))?;
    same("5 for 3 in rule 1", damaged(50, 10), refused(11, 1))?;
    Ok(12)
}

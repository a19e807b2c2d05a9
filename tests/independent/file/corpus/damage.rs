//! Files damaged at one or two known places.

use crate::support::encode::{encode, header, set2};
use crate::support::legal::{legal, of_length, Shape, LONGEST};
use crate::support::program::{rule, yes, Program};
use crate::support::random::Random;
use crate::support::worked;

/// Every byte of a worked file set to every value.
pub fn every_byte() -> Vec<Vec<u8>> {
    let mut files = Vec::new();
    for whole in [encode(&worked::s()), encode(&worked::wet())] {
        for at in 0..whole.len() {
            for value in 0..=255 {
                let mut file = whole.clone();
                file[at] = value;
                files.push(file);
            }
        }
    }
    files
}

/// Broken off at every length; a full file at some, and at all of its last hundred.
pub fn broken_off() -> Vec<Vec<u8>> {
    let mut random = Random::new(4);
    let mut files = Vec::new();
    for whole in [worked::s(), worked::wet(), worked::graph(), no_rules(), empty(), long_body()] {
        let whole = encode(&whole);
        files.extend((0..=whole.len()).map(|length| whole[..length].to_vec()));
    }
    for (derived, rules) in [(508, 1_802), (512, 2_048)] {
        let whole = encode(&of_length(LONGEST, derived, rules, &mut random));
        let lengths = (0..LONGEST).step_by(331).chain(LONGEST - 100..LONGEST);
        files.extend(lengths.map(|length| whole[..length].to_vec()));
    }
    files
}

/// Bytes after the last rule, which may look like a further rule.
pub fn appended() -> Vec<Vec<u8>> {
    let mut files = Vec::new();
    for whole in [worked::s(), worked::wet(), worked::graph(), no_rules(), empty()] {
        let whole = encode(&whole);
        for added in 1..=40 {
            for fill in [0, 1, 2, 255] {
                files.push([&whole[..], &vec![fill; added]].concat());
            }
        }
        files.push([&whole[..], &[2, 0, 0, 0]].concat());
    }
    files
}

fn no_rules() -> Program {
    Program { rules: vec![], ..worked::s() }
}

fn empty() -> Program {
    Program { facts: vec![], layers: vec![], rules: vec![] }
}

/// Refused with 9; broken off inside the body it must stay 9, and inside the header become 8.
fn long_body() -> Program {
    Program { rules: vec![rule(2, &[yes(0)]), rule(3, &[yes(0); 17])], ..worked::s() }
}

/// Counts that the offsets follow, over bytes that were written for other counts: offsets by the table that
/// lie before, at and past the end.
pub fn moved_counts() -> Vec<Vec<u8>> {
    let s = encode(&worked::s());
    let mut files = Vec::new();
    for facts in 0..=34 {
        for derived in (0..=50).chain(510..=514) {
            for rules in [0, 1, 5, 2_048, 2_049] {
                for end in [28, 40, 74] {
                    files.push([&header(facts, derived, rules), &s[28..end]].concat());
                }
            }
        }
    }
    files
}

/// Every header damage alone and with every other, over files that are otherwise sound and that are not.
pub fn header_pairs() -> Vec<Vec<u8>> {
    let mut files = Vec::new();
    for whole in header_bases() {
        let damages = header_damages(&whole);
        for (number, first) in damages.iter().enumerate() {
            for second in &damages[number..] {
                let mut file = whole.clone();
                set2(&mut file, first.0, first.1);
                set2(&mut file, second.0, second.1);
                files.push(file);
            }
        }
    }
    files
}

fn header_bases() -> Vec<Vec<u8>> {
    let all_wrong = Program {
        facts: [vec![(65_535, 65_535); 5], vec![(0, 0)]].concat(),
        layers: vec![1, 0],
        rules: vec![rule(0, &[900]), rule(6, &[0; 17])],
    };
    let largest = Shape { facts: 32, derived: 512, rules: 2_048, body: (0, 0) };
    let largest = legal(&largest, &mut Random::new(5));
    [worked::s(), empty(), no_rules(), all_wrong, largest].iter().map(encode).collect()
}

/// A place in the header and the two bytes to put there.
fn header_damages(whole: &[u8]) -> Vec<(usize, u16)> {
    let two = |at: usize| u16::from_le_bytes([whole[at], whole[at + 1]]);
    let mut damages = vec![(0, 0), (0, 2), (0, 0x101), (0, 0x100), (2, 2), (2, 4), (2, 0x103)];
    for entry in 0..3 {
        let at = 4 + 8 * entry;
        damages.extend([0, 1, 2, 3, 4, 0x101].map(|kind| (at, kind)));
        let largest = [32, 512, 2_048][entry];
        let items = two(at + 2);
        let counts = [0, 1, items.wrapping_sub(1), items + 1, largest, largest + 1, 65_535];
        damages.extend(counts.map(|count| (at + 2, count)));
        let offset = two(at + 4);
        let length = whole.len() as u16;
        damages.extend([0, offset - 1, offset + 1, length, length + 1, 65_535].map(|low| (at + 4, low)));
        damages.extend([1, 0x100, 65_535].map(|high| (at + 6, high)));
    }
    damages
}

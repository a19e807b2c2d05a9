//! Files that are refused at loading, as many with each number; and damaged ones that are still legal.

use crate::calls::engine::job::{close, run, update, Job};
use crate::file::corpus::chance::{damaged_file, faulty_program};
use crate::file::decode;
use crate::support::encode::encode;
use crate::support::worked;

/// Jobs for each refusal, and for 0, no refusal.
const EACH: usize = 14;

/// Longer files would take more of the input than they are worth.
const LONGEST: usize = 300;

pub fn jobs() -> Vec<Job> {
    let mut files = Vec::new();
    let mut met = [0; 12];
    for file in (0..20_000).flat_map(|number| [damaged_file(number), faulty_program(number)]) {
        let refusal = decode(&file).map_or_else(|refusal| refusal.number as usize, |_| 0);
        if met[refusal] < EACH && file.len() <= LONGEST {
            met[refusal] += 1;
            files.push(file);
        }
    }
    files.extend(by_hand());
    files.into_iter().map(|file| Job { size: 9, calls: vec![run(7), update(5), close(), run(100)], file }).collect()
}

/// No byte, too few, one too many for a file, and one too many for S.
fn by_hand() -> Vec<Vec<u8>> {
    let s = encode(&worked::s());
    let mut longest = s.clone();
    longest.resize(65_537, 0);
    vec![vec![], s[..27].to_vec(), s[..28].to_vec(), longest, [&s[..], &[0]].concat()]
}

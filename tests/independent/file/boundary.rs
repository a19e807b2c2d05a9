//! The calls of reach.h, each behind a safe function that also watches the lent memory.

use std::fmt;

/// `reach_counts` of reach.h.
#[repr(C)]
#[derive(Clone, Copy, Debug, PartialEq)]
pub struct Counts {
    pub refusal: u32,
    pub detail: u32,
    pub facts: u32,
    pub derived: u32,
    pub total: u64,
}

impl fmt::Display for Counts {
    fn fmt(&self, out: &mut fmt::Formatter) -> fmt::Result {
        let Counts { refusal, detail, facts, derived, total } = self;
        write!(out, "[refusal {refusal} detail {detail} facts {facts} derived {derived} total {total}]")
    }
}

extern "C" {
    fn reach_read(file: *const u8, file_len: usize) -> Counts;
}

/// Two calls with different bytes around the file: an answer that hangs on bytes outside the file
/// differs between them. The odd guard length puts the file on an odd address.
pub fn read(file: &[u8]) -> Result<Counts, String> {
    let first = read_guarded(file, 64, 0x00)?;
    let second = read_guarded(file, 61, 0xFF)?;
    if first == second {
        Ok(first)
    } else {
        Err(format!("two calls on one file differ: {first} and {second}"))
    }
}

fn read_guarded(file: &[u8], guard: usize, fill: u8) -> Result<Counts, String> {
    let before = [&vec![fill; guard], file, &vec![fill; guard]].concat();
    let mut lent = before.clone();
    // From the whole vector's mutable pointer, so that the compiler must expect writes, into the guards too.
    let start = lent.as_mut_ptr();
    let counts = unsafe { reach_read(start.add(guard), file.len()) };
    if lent == before {
        Ok(counts)
    } else {
        Err(format!("lent memory was written to; answer {counts}"))
    }
}

/// reach.h allows any pointer where the count is 0.
pub fn read_null() -> Counts {
    unsafe { reach_read(std::ptr::null(), 0) }
}

//! The calls of reach.h as C has them.

use crate::calls::engine::answer::{Listed, Ran, Shared, Step, Weighed};
use crate::calls::engine::memory::State;

#[rustfmt::skip] // One array a line, as in reach.h.
extern "C" {
    pub fn reach_load(
        file: *const u8, file_len: usize,
        nodes: *mut u32, nodes_len: usize,
        places: *mut u16, places_len: usize,
    ) -> Step;

    pub fn reach_update(
        file: *const u8, file_len: usize,
        nodes: *mut u32, nodes_len: usize,
        places: *mut u16, places_len: usize,
        state: State, atom: u32,
    ) -> Step;

    pub fn reach_close(
        file: *const u8, file_len: usize,
        nodes: *mut u32, nodes_len: usize,
        places: *mut u16, places_len: usize,
        state: State,
    ) -> Step;

    pub fn reach_run(
        file: *const u8, file_len: usize,
        nodes: *mut u32, nodes_len: usize,
        places: *mut u16, places_len: usize,
        state: State, budget: u64,
    ) -> Ran;

    pub fn reach_weight(
        file: *const u8, file_len: usize,
        nodes: *mut u32, nodes_len: usize,
        places: *const u16, places_len: usize,
        state: State, atom: u32,
        numbers: *mut u64, numbers_len: usize,
    ) -> Weighed;

    pub fn reach_given(
        file: *const u8, file_len: usize,
        nodes: *mut u32, nodes_len: usize,
        places: *const u16, places_len: usize,
        state: State, atom: u32,
        evidence: *const u16, evidence_len: usize,
        numbers: *mut u64, numbers_len: usize,
    ) -> Shared;

    pub fn reach_listing(
        file: *const u8, file_len: usize,
        nodes: *mut u32, nodes_len: usize,
        places: *const u16, places_len: usize,
        state: State, atom: u32,
        out: *mut u8, out_len: usize,
    ) -> Listed;

    pub fn reach_layers(
        file: *const u8, file_len: usize,
        out: *mut u8, out_len: usize,
    ) -> Listed;
}

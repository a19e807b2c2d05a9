//! The library behind the boundary.

use super::abi::*;
use super::call::{Answer, Call, Memory, Side};
use super::guard::Guarded;
use crate::calls::engine::memory::State;
use std::cell::Cell;

/// Counts its calls, for the sentinels to differ from one to the next.
#[derive(Default)]
pub struct Library(Cell<usize>);

/// Everything is lent from memory that can be written to, also what C has as const, so that a write shows.
struct Lending {
    file: Guarded<u8>,
    nodes: Guarded<u32>,
    places: Guarded<u16>,
    evidence: Guarded<u16>,
    numbers: Guarded<u64>,
    out: Guarded<u8>,
}

impl Side for Library {
    fn call(&self, call: Call, memory: &mut Memory) -> Result<Answer, String> {
        let turn = self.0.get();
        self.0.set(turn + 1);
        let mut lending = Lending::new(memory, turn);
        let answer = lending.call(call, memory.state);
        lending.back(memory)?;
        Ok(answer)
    }
}

impl Lending {
    fn new(memory: &Memory, turn: usize) -> Lending {
        Lending {
            file: Guarded::new(&memory.file, [0x00, 0xFF], turn),
            nodes: Guarded::new(&memory.lent.words, [0, u32::MAX], turn),
            places: Guarded::new(&memory.lent.places, [0, 0x5A5A], turn),
            evidence: Guarded::new(&memory.evidence, [0, 0xFFFF], turn),
            numbers: Guarded::new(&memory.numbers, [1, u64::MAX], turn),
            out: Guarded::new(&memory.out, [0xFF, 0x00], turn),
        }
    }

    fn call(&mut self, call: Call, state: State) -> Answer {
        let Lending { file, nodes, places, evidence, numbers, out } = self;
        let (f, fl, n, nl) = (file.start(), file.len(), nodes.start(), nodes.len());
        let (p, pl) = (places.start(), places.len());
        let (w, wl) = (numbers.start(), numbers.len());
        // Each pointer goes with the length of the vector that it was taken from.
        unsafe {
            match call {
                Call::Load => Answer::Step(reach_load(f, fl, n, nl, p, pl)),
                Call::Update(atom) => Answer::Step(reach_update(f, fl, n, nl, p, pl, state, atom)),
                Call::Close => Answer::Step(reach_close(f, fl, n, nl, p, pl, state)),
                Call::Run(budget) => Answer::Ran(reach_run(f, fl, n, nl, p, pl, state, budget)),
                Call::Weight(atom) => Answer::Weighed(reach_weight(f, fl, n, nl, p, pl, state, atom, w, wl)),
                Call::Given(atom) => {
                    let (e, el) = (evidence.start(), evidence.len());
                    Answer::Shared(reach_given(f, fl, n, nl, p, pl, state, atom, e, el, w, wl))
                }
                Call::Listing(atom) => {
                    let (o, ol) = (out.start(), out.len());
                    Answer::Listed(reach_listing(f, fl, n, nl, p, pl, state, atom, o, ol))
                }
            }
        }
    }

    fn back(self, memory: &mut Memory) -> Result<(), String> {
        memory.file = self.file.back("file")?;
        memory.lent.words = self.nodes.back("nodes")?;
        memory.lent.places = self.places.back("places")?;
        memory.evidence = self.evidence.back("evidence")?;
        memory.numbers = self.numbers.back("working numbers")?;
        memory.out = self.out.back("output")?;
        Ok(())
    }
}

//! Listings of single atoms.

use super::answer::{plain, Listed};
use super::calls::Engine;
use super::memory::{Lent, State};
use super::mutant::Mutant;
use super::node::Node;
use super::numbering::Numbering;
use super::question::Question;
use super::store::Store;
use crate::file::Refusal;
use crate::support::encode::push2;

impl Engine {
    pub fn listing(&self, file: &[u8], lent: &Lent, state: State, atom: u32, out: &mut [u8]) -> Listed {
        let refused = |refusal: Refusal, length: usize| {
            let length = if self.is(Mutant::LengthAtTwentyOne) { length as u64 } else { 0 };
            Listed { refusal: refusal.number, detail: refusal.detail, length }
        };
        let bytes = match self.listing_bytes(file, lent, state, atom, out.len()) {
            Ok(bytes) => bytes,
            Err(refusal) => return refused(refusal, 0),
        };
        let room = match self.mutant {
            Mutant::OneByteShortTaken => out.len() + 1,
            Mutant::OneByteMoreNeeded => out.len().saturating_sub(1),
            _ => out.len(),
        };
        let written = bytes.len().min(out.len());
        if bytes.len() > room {
            if self.is(Mutant::PartWritten) {
                out.copy_from_slice(&bytes[..written]);
            }
            return refused(plain(21), bytes.len());
        }
        out[..written].copy_from_slice(&bytes[..written]);
        if self.is(Mutant::RestOfOutputCleared) {
            out[written..].fill(0);
        }
        Listed { refusal: 0, detail: 0, length: bytes.len() as u64 }
    }

    fn listing_bytes(
        &self,
        file: &[u8],
        lent: &Lent,
        state: State,
        atom: u32,
        room: usize,
    ) -> Result<Vec<u8>, Refusal> {
        let (program, mut store) = self.opened(file, lent, state)?;
        let order: &[u32] = match self.mutant {
            Mutant::ListedUnfinished => &[13],
            Mutant::ThirteenBeforeSeventeen => &[13, 17],
            _ => &[17, 13],
        };
        if self.is(Mutant::TwentyOneBeforeThirteen) && state.finished() && room < 6 {
            return Err(plain(21));
        }
        self.test(order, &program, lent, &Question { state, atom, evidence: &[], numbers: 0 })?;
        let (root, nodes) = self.listed(&mut store, atom as usize);
        let mut bytes = Vec::new();
        for number in [program.facts.len(), nodes.len(), root] {
            push2(&mut bytes, number as u16);
        }
        for number in nodes.iter().flat_map(|node| [node.fact, node.low, node.high]) {
            push2(&mut bytes, number as u16);
        }
        Ok(bytes)
    }

    /// A store with nothing in it numbers a function's nodes as its listing does.
    fn listed(&self, store: &mut Store, atom: usize) -> (usize, Vec<Node>) {
        let function = store.values()[atom];
        let reading = match self.mutant {
            Mutant::HighSideListedFirst => Mutant::HighSideFirst,
            Mutant::ParentsListedFirst => Mutant::NodeBeforeSides,
            Mutant::WholeStoreListed => return store.listed(function),
            _ => Mutant::None,
        };
        let mut numbering = Numbering::new(reading);
        let root = numbering.build(function, store.form());
        let mut nodes = numbering.nodes;
        if self.is(Mutant::ConstantsListed) && nodes.is_empty() {
            nodes.push(Node { fact: 0, low: root, high: root });
        }
        let uncounted = if self.is(Mutant::RootCountedFromZero) && root > 1 { 2 } else { 0 };
        (root - uncounted, nodes)
    }
}

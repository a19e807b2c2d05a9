//! Refusal 36: whether a later call's file, store and passed numbers fit together.

use super::layers;
use super::memory::{Lent, State, PLACES};
use super::mutant::Mutant;
use super::node::Node;
use crate::file::decode;
use crate::support::program::Program;
use std::collections::HashSet;

/// The program where they do.
pub fn fitting(file: &[u8], lent: &Lent, state: State, mutant: Mutant) -> Option<Program> {
    let program = decode(file).ok()?;
    let fit = Fit { program: &program, lent, nodes: state.nodes as usize, mutant };
    // The further tests look at nodes and places that only right lengths have.
    let fits = fit.lengths()
        && fit.facts_as_loaded()
        && fit.nodes_obey()
        && fit.places_fit()
        && fit.unused_words_zero()
        && fit.layer_in_work(state.layer);
    fits.then_some(program)
}

struct Fit<'a> {
    program: &'a Program,
    lent: &'a Lent,
    nodes: usize,
    mutant: Mutant,
}

impl Fit<'_> {
    fn is(&self, mutant: Mutant) -> bool {
        self.mutant == mutant
    }

    fn lengths(&self) -> bool {
        let least = if self.is(Mutant::ShortPlacesTaken) { self.program.atoms() } else { PLACES };
        let most = self.lent.size() - usize::from(self.is(Mutant::LastEntryUnused) && self.lent.size() > 0);
        self.lent.places.len() >= least && (self.program.facts.len()..=most).contains(&self.nodes)
    }

    fn facts_as_loaded(&self) -> bool {
        (0..self.program.facts.len()).all(|fact| {
            let node = Node { fact, low: 0, high: 1 };
            let place = usize::from(self.lent.places[fact]);
            (self.lent.words[fact] == node.word() || self.is(Mutant::FactNodesUntested))
                && (place == fact + 2 || self.is(Mutant::FactPlacesUntested) && place < self.nodes + 2)
        })
    }

    /// Facts rise strictly downward, the two sides differ, no two nodes are equal, sides are numbered below.
    fn nodes_obey(&self) -> bool {
        let nodes: Vec<Node> = self.lent.words[..self.nodes].iter().map(|word| Node::of(*word)).collect();
        let different: HashSet<&Node> = nodes.iter().collect();
        let known = |node: &Node| node.fact < self.program.facts.len() || self.is(Mutant::UnknownFactsTaken);
        let forks = |node: &Node| node.low != node.high || self.is(Mutant::EqualSidesTaken);
        let rises = |node: &Node, side: usize| side < 2 || nodes[side - 2].fact > node.fact;
        let below = |at: usize, node: &Node, side: usize| {
            let numbered = side < at + 2 || self.is(Mutant::SidesAbove) && side < nodes.len() + 2;
            numbered && (rises(node, side) || self.is(Mutant::FactsNeedNotRise))
        };
        let obeys = |(at, node): (usize, &Node)| {
            known(node) && forks(node) && below(at, node, node.low) && below(at, node, node.high)
        };
        (different.len() == nodes.len() || self.is(Mutant::EqualNodesTaken)) && nodes.iter().enumerate().all(obeys)
    }

    /// Never and always are nodes in use, too.
    fn places_fit(&self) -> bool {
        let places = &self.lent.places[..PLACES.min(self.lent.places.len())];
        let (used, unused) = places.split_at(self.program.atoms());
        let end = match self.mutant {
            Mutant::LastNodeNotInUse if self.nodes > self.program.facts.len() => self.nodes + 1,
            Mutant::OnePastInUse => self.nodes + 3,
            _ => self.nodes + 2,
        };
        let in_use = |place: &u16| usize::from(*place) < end && !(self.is(Mutant::AlwaysNotInUse) && *place == 1);
        used.iter().all(in_use) && (self.is(Mutant::UnusedPlacesUntested) || unused.iter().all(|place| *place == 0))
    }

    fn unused_words_zero(&self) -> bool {
        let end = if self.is(Mutant::BeyondTested) { self.lent.words.len() } else { self.lent.size() };
        self.is(Mutant::UnusedWordsUntested) || self.lent.words[self.nodes..end].iter().all(|word| *word == 0)
    }

    fn layer_in_work(&self, layer: u32) -> bool {
        let layer = match self.mutant {
            Mutant::LayerInTwoBytes => layer % 65_536,
            Mutant::AnyLayerFits => return true,
            Mutant::ZeroIsFinished if layer == 0 => return true,
            _ => layer,
        };
        State { layer, nodes: 0 }.finished() || !layers::atoms(self.program, layer).is_empty()
    }
}

//! The smallest layer of every atom, or the lowest atom on any chain.

use super::components::components;
use super::links::{links, Link};
use crate::support::program::Program;

/// Facts are layer 0. An error is the lowest atom on any chain: a negated link within a component puts every atom of
/// that component on one, and no others are.
pub fn smallest(program: &Program) -> Result<Vec<usize>, usize> {
    let links = links(program);
    let component = components(program.atoms(), &links);
    let mut chained = vec![false; program.atoms()];
    for Link { from, to, .. } in links.iter().filter(|link| link.negated) {
        chained[component[*from]] |= component[*from] == component[*to];
    }
    match (0..program.atoms()).find(|atom| chained[component[*atom]]) {
        Some(atom) => Err(atom),
        None => Ok(layers(program, &links, &component)),
    }
}

/// The atoms of a component share a layer. Links lead to lower components, whose layers are known by then.
fn layers(program: &Program, links: &[Link], component: &[usize]) -> Vec<usize> {
    let mut of_component = vec![1; program.atoms()];
    (0..program.facts.len()).for_each(|fact| of_component[component[fact]] = 0);
    let mut upward: Vec<&Link> = links.iter().collect();
    upward.sort_by_key(|link| component[link.from]);
    for Link { from, to, negated, .. } in upward {
        let least = of_component[component[*to]] + usize::from(*negated);
        let layer = &mut of_component[component[*from]];
        *layer = least.max(*layer);
    }
    component.iter().map(|number| of_component[*number]).collect()
}

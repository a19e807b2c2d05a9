//! Numbered nodes looked at as a diagram, without the functions they were numbered from.

use super::numbering::Node;
use crate::support::checked::same;
use std::collections::BTreeSet;

/// Whether the choice leads from this number to always.
pub fn holds(nodes: &[Node], number: usize, choice: u64) -> bool {
    let mut number = number;
    while number > 1 {
        let Node { fact, low, high } = nodes[number - 2];
        number = if choice >> fact & 1 == 1 { high } else { low };
    }
    number == 1
}

/// How many of all choices of 32 facts lead to always: half of what both sides have together.
pub fn choices(nodes: &[Node], number: usize) -> u64 {
    let mut counts = vec![0, 1 << 32];
    for node in nodes {
        counts.push((counts[node.low] + counts[node.high]) / 2);
    }
    counts[number]
}

/// Facts rise strictly downward, the two sides differ, no two nodes are equal, sides are numbered below.
pub fn obeys_rules(nodes: &[Node]) -> Result<(), String> {
    for (number, node) in (2..).zip(nodes) {
        let below = |side: usize| side < number && (side < 2 || nodes[side - 2].fact > node.fact);
        if node.low == node.high || !below(node.low) || !below(node.high) {
            return Err(format!("node {number} is {node}"));
        }
    }
    let different: BTreeSet<&Node> = nodes.iter().collect();
    same("different nodes", different.len(), nodes.len())
}

/// Listing one result after another meets the numbers in their order, and meets them all.
pub fn in_listing_order(nodes: &[Node], results: &[usize]) -> Result<(), String> {
    let mut met = Vec::new();
    for result in results {
        list(nodes, *result, &mut met);
    }
    same("numbers in listing order", met, (2..nodes.len() + 2).collect())
}

fn list(nodes: &[Node], number: usize, met: &mut Vec<usize>) {
    if number < 2 || met.contains(&number) {
        return;
    }
    let node = nodes[number - 2];
    list(nodes, node.low, met);
    list(nodes, node.high, met);
    met.push(number);
}

//! The stand-in's search: who is named, which chain is shown, and how high the layers are.

use super::links::Link;
use super::mutant::Mutant;
use super::web::Web;
use crate::support::program::Program;
use std::collections::VecDeque;

/// The lowest atom on any chain.
pub fn named(program: &Program, web: &Web, mutant: Mutant) -> Option<usize> {
    let on_chain = match mutant {
        Mutant::EvenNegationsTaken => web.on_odd_chain(),
        Mutant::PlainRingRefused => (0..web.atoms).map(|atom| web.reaches(atom, atom)).collect(),
        _ => web.on_chain(),
    };
    let derived = program.facts.len()..web.atoms;
    let mut chained = derived.clone().filter(|atom| on_chain[*atom]);
    let lowest = chained.clone().next()?;
    let other = match mutant {
        Mutant::DependentsNamed => {
            derived.clone().find(|atom| chained.clone().any(|other| *atom == other || web.reaches(*atom, other)))
        }
        Mutant::FedNamed => derived.clone().find(|atom| chained.clone().any(|other| web.reaches(other, *atom))),
        Mutant::FirstInRuleOrderNamed => {
            program.rules.iter().map(|rule| usize::from(rule.head)).find(|head| on_chain[*head])
        }
        Mutant::HighestNamed => chained.next_back(),
        Mutant::NegatedLinkNamed => {
            let closed = |link: &&Link| link.negated && (link.from == link.to || web.reaches(link.to, link.from));
            web.links.iter().filter(closed).map(|link| link.from).min()
        }
        Mutant::AtomsComeOnce if web.atoms <= 10 => chained.find(|atom| comes_once(web, &[*atom], false)),
        _ => None,
    };
    Some(other.unwrap_or(lowest))
}

/// Whether the path can be closed through a negated link without meeting an atom twice.
fn comes_once(web: &Web, path: &[usize], negated: bool) -> bool {
    let here = path[path.len() - 1];
    web.links.iter().filter(|link| link.from == here).any(|link| {
        let negated = negated || link.negated;
        let closed = link.to == path[0] && negated;
        closed || !path.contains(&link.to) && comes_once(web, &[path, &[link.to]].concat(), negated)
    })
}

/// A shortest chain through the atom, by breadth: a state is an atom and whether a negated link led there. Empty where
/// there is none.
pub fn chain(web: &Web, atom: usize, needs_negation: bool) -> Vec<usize> {
    let mut leaving = vec![Vec::new(); web.atoms];
    web.links.iter().for_each(|link| leaving[link.from].push(*link));
    let mut came: Vec<Option<(usize, usize)>> = vec![None; 2 * web.atoms];
    let mut waiting = VecDeque::from([2 * atom]);
    while let Some(state) = waiting.pop_front() {
        for link in &leaving[state / 2] {
            let negated = state % 2 == 1 || link.negated;
            if link.to == atom && (negated || !needs_negation) {
                return back(&came, state, 2 * atom, link.rule);
            }
            let next = 2 * link.to + usize::from(negated);
            if came[next].is_none() && next != 2 * atom {
                came[next] = Some((state, link.rule));
                waiting.push_back(next);
            }
        }
    }
    Vec::new()
}

fn back(came: &[Option<(usize, usize)>], mut state: usize, start: usize, last: usize) -> Vec<usize> {
    let mut chain = vec![last];
    while let (true, Some((before, rule))) = (state != start, came[state]) {
        chain.push(rule);
        state = before;
    }
    chain.reverse();
    chain
}

/// Layers of all atoms, raised in rounds through the links until none is too low. A reading that never settles is
/// stopped.
pub fn heights(program: &Program, web: &Web, mutant: Mutant) -> Vec<usize> {
    let mut heights: Vec<usize> = (0..web.atoms).map(|atom| least(program, atom, mutant)).collect();
    let rounds = if mutant == Mutant::RulesReadOnce { 1 } else { web.atoms };
    for _ in 0..rounds {
        let before = heights.clone();
        for link in &web.links {
            let over = heights[link.to] + usize::from(raises(program, web, link, mutant));
            heights[link.from] = heights[link.from].max(over);
        }
        if heights == before {
            break;
        }
    }
    heights
}

fn least(program: &Program, atom: usize, mutant: Mutant) -> usize {
    let derived = usize::from(atom >= program.facts.len());
    match mutant {
        Mutant::NegatedFactForcesTwo => 1,
        Mutant::GivenLayersKept => usize::from(program.layer(atom)),
        Mutant::NoRuleAtZero if !has_rule(program, atom) => 0,
        _ => derived,
    }
}

fn has_rule(program: &Program, atom: usize) -> bool {
    program.rules.iter().any(|rule| usize::from(rule.head) == atom)
}

fn raises(program: &Program, web: &Web, link: &Link, mutant: Mutant) -> bool {
    match mutant {
        Mutant::NoRuleRaisesNothing => link.negated && has_rule(program, link.to),
        Mutant::EmptyBodyRaisesNothing => {
            link.negated && !program.rules.iter().any(|rule| usize::from(rule.head) == link.to && rule.body.is_empty())
        }
        Mutant::LegalButNotSmallest => link.negated || link.from != link.to && !web.reaches(link.to, link.from),
        _ => link.negated,
    }
}

/// For one mutant: the highest layers that are legal and no higher than the highest smallest one.
pub fn from_the_top(program: &Program, web: &Web, smallest: &[usize]) -> Vec<usize> {
    let top = smallest.iter().max().copied().unwrap_or(0);
    let mut heights = vec![top; web.atoms];
    for _ in 0..web.atoms {
        for link in &web.links {
            heights[link.to] = heights[link.to].min(heights[link.from] - usize::from(link.negated));
        }
    }
    heights[..program.facts.len()].fill(0);
    heights
}

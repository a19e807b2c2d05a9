//! The links that a reading sees, and what it reaches along them: the stand-in's own way, without components.

use super::links::{links, Link};
use super::mutant::Mutant;
use crate::support::program::{yes, Program, Rule};

pub struct Web {
    pub links: Vec<Link>,
    pub atoms: usize,
    /// Rows of bits: the atoms reached from an atom over one link or more.
    reached: Vec<Vec<u64>>,
}

impl Web {
    pub fn of(program: &Program, mutant: Mutant) -> Web {
        let links: Vec<Link> = links(program).into_iter().filter_map(|link| seen(link, program, mutant)).collect();
        let atoms = program.atoms();
        let reached = closure(atoms, links.iter().map(|link| (link.from, link.to)));
        Web { links, atoms, reached }
    }

    pub fn reaches(&self, from: usize, to: usize) -> bool {
        bit(&self.reached, from, to)
    }

    /// Whether a negated link lies on a way from an atom back to itself.
    pub fn on_chain(&self) -> Vec<bool> {
        let mut on_chain = vec![false; self.atoms];
        for Link { from, to, .. } in self.links.iter().filter(|link| link.negated) {
            let closed = from == to || self.reaches(*to, *from);
            if closed && !on_chain[*from] {
                // All that the atom reaches and that reaches it, and the atom itself.
                for (atom, on) in on_chain.iter_mut().enumerate() {
                    *on |= atom == *from || self.reaches(*from, atom) && self.reaches(atom, *from);
                }
            }
        }
        on_chain
    }

    /// For one mutant: atoms with a way back to themselves over an odd number of negated links.
    pub fn on_odd_chain(&self) -> Vec<bool> {
        let states = self.links.iter().flat_map(|link| {
            let side = usize::from(link.negated);
            [(2 * link.from, 2 * link.to + side), (2 * link.from + 1, 2 * link.to + 1 - side)]
        });
        let reached = closure(2 * self.atoms, states);
        (0..self.atoms).map(|atom| bit(&reached, 2 * atom, 2 * atom + 1)).collect()
    }
}

/// A link as the reading takes it, if it does.
fn seen(link: Link, program: &Program, mutant: Mutant) -> Option<Link> {
    let rule = &program.rules[link.rule];
    let atom = yes(link.to as u16);
    let taken = match mutant {
        Mutant::LastRuleDecides => program.rules.iter().rposition(|other| other.head == rule.head) == Some(link.rule),
        Mutant::FirstLiteralDecides => rule.body[0] / 2 == atom / 2,
        Mutant::SixteenthLiteralUnread => rule.body[..rule.body.len().min(15)].contains(&literal(link)),
        Mutant::DeadBodiesSkipped => !dead(rule),
        Mutant::OwnNegationTaken => link.from != link.to || !link.negated,
        _ => true,
    };
    let negated = match mutant {
        Mutant::PlainRaises => true,
        Mutant::NegatedDoesNotRaise => false,
        Mutant::WholeBodyNegated => rule.body.iter().any(|literal| literal % 2 == 1),
        Mutant::PlainBesideNegated => link.negated && !rule.body.contains(&atom),
        _ => link.negated,
    };
    taken.then_some(Link { negated, ..link })
}

fn literal(link: Link) -> u16 {
    yes(link.to as u16) + u16::from(link.negated)
}

fn dead(rule: &Rule) -> bool {
    rule.body.iter().any(|literal| rule.body.contains(&(literal ^ 1)))
}

fn bit(rows: &[Vec<u64>], row: usize, column: usize) -> bool {
    rows[row][column / 64] >> (column % 64) & 1 == 1
}

/// By Warshall's way: ways over the first atoms only, then over more and more of them.
fn closure(size: usize, links: impl Iterator<Item = (usize, usize)>) -> Vec<Vec<u64>> {
    let mut rows = vec![vec![0u64; size.div_ceil(64)]; size];
    for (from, to) in links {
        rows[from][to / 64] |= 1 << (to % 64);
    }
    for over in 0..size {
        let through = rows[over].clone();
        for row in rows.iter_mut().filter(|row| row[over / 64] >> (over % 64) & 1 == 1) {
            row.iter_mut().zip(&through).for_each(|(word, more)| *word |= more);
        }
    }
    rows
}

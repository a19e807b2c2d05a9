//! What an atom's rules say of others, read off their text: a body that can never hold counts too.

use crate::support::program::{not, yes, Program, Rule};

/// One literal, as a link from its rule's head to its own atom.
#[derive(Clone, Copy, Debug, PartialEq)]
pub struct Link {
    pub rule: usize,
    pub from: usize,
    pub to: usize,
    pub negated: bool,
}

pub fn links(program: &Program) -> Vec<Link> {
    program.rules.iter().enumerate().flat_map(|(number, rule)| of_rule(number, rule)).collect()
}

fn of_rule(number: usize, rule: &Rule) -> impl Iterator<Item = Link> + '_ {
    let from = usize::from(rule.head);
    rule.body.iter().map(move |literal| {
        let (to, negated) = (usize::from(literal / 2), literal % 2 == 1);
        Link { rule: number, from, to, negated }
    })
}

/// How a body holds an atom: not at all, plain, or negated. Where it holds both, it counts as negated.
pub fn held(rule: &Rule, atom: u16) -> Option<bool> {
    let negated = rule.body.contains(&not(atom));
    (negated || rule.body.contains(&yes(atom))).then_some(negated)
}

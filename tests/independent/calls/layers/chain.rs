//! What a chain is, apart from any search for one.

use super::links::held;
use crate::support::program::Program;

/// The most rules that a refusal shows.
pub const LONGEST: usize = 1_023;

/// An error says why these rules are no chain on which the atom depends on itself through a negated literal: the first
/// rule's head is the atom, each body holds the next rule's head, the last the first's, and one of these is negated.
/// Atoms and rules may come again.
pub fn test(program: &Program, atom: u32, chain: &[usize]) -> Result<(), String> {
    let count = chain.len();
    if count == 0 || count > LONGEST {
        return Err(format!("a chain of {count} rules"));
    }
    if let Some(number) = chain.iter().find(|number| **number >= program.rules.len()) {
        return Err(format!("no rule {number}"));
    }
    let first = program.rules[chain[0]].head;
    if u32::from(first) != atom {
        return Err(format!("the first rule's head is {first}, not {atom}"));
    }
    let mut negated = false;
    for (at, number) in chain.iter().enumerate() {
        let next = program.rules[chain[(at + 1) % count]].head;
        match held(&program.rules[*number], next) {
            Some(link) => negated |= link,
            None => return Err(format!("rule {number}, at place {at}, does not hold {next}")),
        }
    }
    if negated {
        Ok(())
    } else {
        Err("no link of the chain is negated".to_string())
    }
}

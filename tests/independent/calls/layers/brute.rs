//! This program's own answer on tiny programs, against all layerings and all chains, tried one by one.

use super::by_hand::program;
use super::chain;
use super::links::held;
use super::smallest::smallest;
use crate::support::checked::{same, Checked};
use crate::support::program::{rule, Program};
use crate::support::random::Random;

/// Layers tried; four atoms need no more than four, and one more shows that a higher one is not taken.
const HIGHEST: usize = 5;

/// Every set of links among up to two derived atoms and a fact, each link a rule of its own.
pub fn every_link() -> Checked {
    let mut programs = 0;
    for derived in 1..=2u16 {
        let atoms = derived + 1;
        let links: Vec<(u16, u16)> = (1..atoms).flat_map(|head| (0..2 * atoms).map(move |body| (head, body))).collect();
        for set in 0..1u32 << links.len() {
            let taken = links.iter().enumerate().filter(|(number, _)| set >> number & 1 == 1);
            let rules: Vec<_> = taken.map(|(_, (head, literal))| rule(*head, &[*literal])).collect();
            agrees(&program(1, usize::from(derived), &rules))?;
            programs += 1;
        }
    }
    Ok(programs)
}

/// Up to four derived atoms, with longer bodies.
pub fn tiny() -> Checked {
    let programs = 20_000;
    let mut chained = 0;
    for number in 0..programs {
        let mut random = Random::new(number);
        let (facts, derived) = (random.below(2), 1 + random.below(4));
        let atoms = facts + derived;
        let negated = random.pick(&[1, 2, 4]);
        let mut rules = Vec::new();
        for _ in 0..random.below(7) {
            let literal = |random: &mut Random| 2 * random.below(atoms) + usize::from(random.below(8) < negated);
            let body: Vec<u16> = (0..random.below(4)).map(|_| literal(&mut random) as u16).collect();
            rules.push(rule((facts + random.below(derived)) as u16, &body));
        }
        let tried = program(facts, derived, &rules);
        agrees(&tried)?;
        chained += usize::from(smallest(&tried).is_err());
    }
    if chained * 10 < programs as usize || chained * 10 > 9 * programs as usize {
        return Err(format!("{chained} of {programs} have chains"));
    }
    Ok(programs as usize)
}

/// One layering is below all others at every atom at once, or there is none, and then there is a chain.
fn agrees(program: &Program) -> Result<(), String> {
    let least = least(program);
    if least.iter().any(|least| !legal(program, least)) {
        return Err(format!("no layering is below all others: {program:?}"));
    }
    let lowest = (program.facts.len()..program.atoms()).find(|atom| some_chain(program, *atom, &[]));
    let wanted = match (least, lowest) {
        (Some(least), None) => Ok(least),
        (None, Some(atom)) => Err(atom),
        both => return Err(format!("layering and chain {both:?} of {program:?}")),
    };
    same(&format!("{program:?}"), smallest(program), wanted)
}

/// The lowest layer of each atom in any legal layering. None where there is none.
fn least(program: &Program) -> Option<Vec<usize>> {
    let (facts, derived) = (program.facts.len(), program.layers.len());
    let mut least: Option<Vec<usize>> = None;
    for number in 0..HIGHEST.pow(derived as u32) {
        let layer = |place: usize| number / HIGHEST.pow(place as u32) % HIGHEST + 1;
        let layers: Vec<usize> = (0..facts).map(|_| 0).chain((0..derived).map(layer)).collect();
        if legal(program, &layers) {
            let below = least.unwrap_or_else(|| layers.clone());
            least = Some(below.iter().zip(&layers).map(|(one, other)| *one.min(other)).collect());
        }
    }
    least
}

/// "A rule's positive atoms lie in the head's layer or lower, its negated atoms strictly lower."
fn legal(program: &Program, layers: &[usize]) -> bool {
    program.rules.iter().all(|rule| {
        let head = layers[usize::from(rule.head)];
        rule.body.iter().all(|literal| {
            let layer = layers[usize::from(literal / 2)];
            layer < head || layer == head && literal % 2 == 0
        })
    })
}

/// Whether some chain through the atom starts with these rules. Where there is one at all, one has at most 2 D - 1.
fn some_chain(program: &Program, atom: usize, start: &[usize]) -> bool {
    if chain::test(program, atom as u32, start).is_ok() {
        return true;
    }
    if start.len() + 1 >= 2 * program.layers.len() + usize::from(start.is_empty()) {
        return false;
    }
    (0..program.rules.len()).any(|next| {
        let head = program.rules[next].head;
        let fits = match start.last() {
            None => usize::from(head) == atom,
            Some(last) => held(&program.rules[*last], head).is_some(),
        };
        fits && some_chain(program, atom, &[start, &[next]].concat())
    })
}

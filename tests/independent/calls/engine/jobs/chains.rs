//! Chains, which take the fewest and the most rounds.

use super::needed;
use crate::calls::engine::job::{close, run, update, Call, Job};
use crate::calls::engine::programs::{chain, every_layer, negated_chain, parity};

pub fn jobs() -> Vec<Job> {
    [plain(), one_round_each(), layered()].concat()
}

/// Rising ones are settled after one round, falling ones change one atom in each.
fn plain() -> Vec<Job> {
    let mut jobs = Vec::new();
    for atoms in [1, 2, 3, 7, 40] {
        let (rising, falling): (Vec<u16>, Vec<u16>) = ((0..atoms).collect(), (0..atoms).rev().collect());
        let atoms = u32::from(atoms);
        let most = atoms * (atoms + 1);
        for order in [rising, falling] {
            let program = chain(&order);
            for budget in [most, most - 1, most - atoms, 2 * atoms, 262_656] {
                jobs.push(Job::new(1, &[run(budget), run(atoms), close()], &program));
            }
        }
    }
    jobs
}

/// A chain that falls, by runs of one round, and by updates in the order of the chain, after which it can be closed.
fn one_round_each() -> Vec<Job> {
    let atoms = 20;
    let program = chain(&(0..atoms).rev().collect::<Vec<u16>>());
    let along: Vec<Call> = (1..=atoms).rev().map(|atom| update(atom.into())).collect();
    vec![
        Job::new(1, &vec![run(atoms.into()); 22], &program),
        Job::new(1, &[&along[..], &[close()]].concat(), &program),
        Job::new(1, &[&along[..19], &[close(), run(20), close()]].concat(), &program),
    ]
}

/// Many layers of one atom; at last every layer there is.
fn layered() -> Vec<Job> {
    let mut jobs = vec![Job::new(9, &[run(1), close(), run(400), run(400)], &every_layer())];
    for program in [negated_chain(40), parity(12)] {
        let needed = needed(&program);
        for size in [needed - 1, needed] {
            jobs.push(Job::new(size, &[run(262_656)], &program));
            jobs.push(Job::new(size, &[run(1); 60], &program));
            jobs.push(Job::new(size, &[run(3), close(), run(40), close(), run(40)], &program));
        }
    }
    jobs
}

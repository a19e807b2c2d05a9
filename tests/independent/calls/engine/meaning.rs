//! What the store says at every step, held against the models of all choices.

use super::job::Job;
use super::memory::Lent;
use super::node::Node;
use super::session::Session;
use super::watch::each_state;
use crate::file::decode;
use crate::meaning::model::model;
use crate::support::checked::Checked;
use crate::support::program::Program;
use crate::support::random::Random;
use std::collections::HashMap;

/// Facts up to which all choices are gone through.
const FEW: usize = 8;

/// Choices by chance where there are more facts.
const SOME: usize = 64;

/// Choices, and for each the atoms that its model holds.
type Models = Vec<(u64, Vec<bool>)>;

/// No atom is shown where its model does not hold it, closed layers are exact, and what is not yet in work is never.
pub fn never_above(jobs: &[Job]) -> Checked {
    let mut known: HashMap<Vec<u8>, (Program, Models)> = HashMap::new();
    each_state(jobs, |session| {
        let (program, models) = known.entry(session.file.to_vec()).or_insert_with(|| meaning(session.file));
        test(program, models, session)
    })
}

fn meaning(file: &[u8]) -> (Program, Models) {
    let program = decode(file).expect("only loaded files are asked for");
    let models = choices(program.facts.len()).map(|choice| (choice, model(&program, choice))).collect();
    (program, models)
}

fn choices(facts: usize) -> Box<dyn Iterator<Item = u64>> {
    let mut random = Random::new(9);
    if facts <= FEW {
        Box::new(0..1 << facts)
    } else {
        Box::new((0..SOME).map(move |_| random.draw()))
    }
}

fn test(program: &Program, models: &Models, session: &Session) -> Result<(), String> {
    for atom in 0..program.atoms() {
        let layer = u32::from(program.layer(atom));
        for (choice, model) in models {
            let shown = holds(&session.lent, atom, *choice);
            let right = match layer {
                closed if closed < session.state.layer => shown == model[atom],
                open if open == session.state.layer => model[atom] || !shown,
                _ => !shown,
            };
            if !right {
                return Err(format!("atom {atom} under choice {choice} shows {shown} in state {}", session.state));
            }
        }
    }
    Ok(())
}

/// Whether the choice leads from the atom's place to always.
fn holds(lent: &Lent, atom: usize, choice: u64) -> bool {
    let mut number = usize::from(lent.places[atom]);
    while number > 1 {
        let Node { fact, low, high } = Node::of(lent.words[number - 2]);
        number = if choice >> fact & 1 == 1 { high } else { low };
    }
    number == 1
}

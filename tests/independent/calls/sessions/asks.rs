//! Draws the next call, and the arrays that questions need.

use crate::calls::engine::calls::Engine;
use crate::calls::engine::layers;
use crate::calls::host::{Call, Memory};
use crate::meaning::model::model;
use crate::support::program::Program;
use crate::support::random::Random;

/// Budgets for stores that no call gave: their layers can swing for ever.
const SHORT: usize = 40;

/// Any call, most of them such as make sense.
pub fn any(program: &Program, memory: &mut Memory, random: &mut Random) -> Call {
    match random.below(10) {
        0..=2 => step(program, memory, random),
        3 => Call::Close,
        4 => Call::Run(random.below(SHORT) as u64),
        _ => question(program, memory, random),
    }
}

/// An update, mostly of an atom of the layer in work.
pub fn step(program: &Program, memory: &Memory, random: &mut Random) -> Call {
    let atoms = layers::atoms(program, memory.state.layer);
    if atoms.is_empty() || random.below(6) == 0 {
        return Call::Update(atom(program, random));
    }
    Call::Update(random.pick(&atoms) as u32)
}

/// Known ones as a rule; also just past the end, and such as are known in their low bytes.
pub fn atom(program: &Program, random: &mut Random) -> u32 {
    let atoms = program.atoms();
    match random.below(12) {
        0 => atoms as u32,
        1 => random.pick(&[u32::MAX, 65_535, 65_536, 65_538, 544, 543]),
        _ => random.below(atoms.max(1)) as u32,
    }
}

pub fn question(program: &Program, memory: &mut Memory, random: &mut Random) -> Call {
    let atom = atom(program, random);
    match random.below(4) {
        0 => {
            lend_numbers(memory, random);
            Call::Weight(atom)
        }
        1 => {
            lend_output(memory, atom, random);
            Call::Listing(atom)
        }
        _ => {
            lend_numbers(memory, random);
            memory.evidence = evidence(program, random);
            Call::Given(atom)
        }
    }
}

/// Enough as a rule, often more; one too few comes as often as one expects of a wrong bound.
fn lend_numbers(memory: &mut Memory, random: &mut Random) {
    let needed = memory.lent.size() + 2;
    let length = match random.below(10) {
        0 => needed - 1,
        1 => random.pick(&[0, 1, memory.state.nodes as usize % 5_000 + 2]),
        2..=5 => needed,
        _ => needed + 1 + random.below(5),
    };
    memory.numbers = vec![random.draw() | 1; length];
}

/// By the length that the engine needs.
fn lend_output(memory: &mut Memory, atom: u32, random: &mut Random) {
    let mut room = vec![0; 6 * 4_097];
    let listed = Engine::HONEST.listing(&memory.file, &memory.lent, memory.state, atom, &mut room);
    let needed = (listed.length as usize).max(6);
    let length = match random.below(10) {
        0 | 1 => needed - 1,
        2 => random.below(needed),
        3..=5 => needed,
        _ => needed + 1 + random.below(14),
    };
    memory.out = vec![random.draw() as u8 | 1; length];
}

fn evidence(program: &Program, random: &mut Random) -> Vec<u16> {
    let length = match random.below(10) {
        0 => 0,
        1..=5 => 1 + random.below(4),
        6 => 5 + random.below(12),
        _ => 62 + random.below(5),
    };
    let mut literals = if program.atoms() == 0 { vec![] } else { known(program, length, random) };
    if random.below(12) == 0 {
        let unknown = random.pick(&[2 * program.atoms() as u16, 2 * program.atoms() as u16 + 1, 65_535]);
        literals.insert(random.below(literals.len() + 1), unknown);
    }
    literals
}

/// Mostly such as some choice meets: others soon come to nothing. Many are repeats.
fn known(program: &Program, length: usize, random: &mut Random) -> Vec<u16> {
    let model = model(program, random.draw());
    let wrong = random.pick(&[0, 0, 0, 6, 2]);
    let mut literals = Vec::new();
    for _ in 0..length {
        let atom = random.below(program.atoms());
        let turned = wrong > 0 && random.below(wrong) == 0;
        literals.push((2 * atom + usize::from(model[atom] == turned)) as u16);
    }
    literals
}

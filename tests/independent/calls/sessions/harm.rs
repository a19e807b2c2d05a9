//! Damage to what a host hands back. Some of it is harmless; the engine knows.

use crate::calls::engine::layers;
use crate::calls::engine::memory::{State, FINISHED, LARGEST, PLACES};
use crate::calls::engine::node::Node;
use crate::calls::host::Memory;
use crate::file::corpus::chance::{damaged_file, faulty_program};
use crate::support::encode::encode;
use crate::support::program::Program;
use crate::support::random::Random;
use crate::support::worked;

pub fn harmed(memory: &Memory, program: &Program, random: &mut Random) -> Memory {
    let mut memory = memory.clone();
    match random.below(15) {
        14 => renumbered(&mut memory, program, random),
        0..=5 => word(&mut memory, program, random),
        6..=8 => place(&mut memory, program, random),
        9 | 10 => state(&mut memory, program, random),
        11 => lengths(&mut memory, program, random),
        _ => file(&mut memory, random),
    }
    memory
}

fn used(memory: &Memory) -> usize {
    memory.lent.size().min(memory.state.nodes as usize)
}

fn word(memory: &mut Memory, program: &Program, random: &mut Random) {
    let (used, size, facts) = (used(memory), memory.lent.size(), program.facts.len());
    let words = &mut memory.lent.words;
    if used < size && (used == 0 || random.below(5) == 0) {
        let any = used + random.below(size - used);
        let past = random.pick(&[used, size - 1, any]);
        words[past] = random.pick(&[1, 1 << 13, 1 << 31, words[0]]);
        return;
    }
    if used == 0 {
        return;
    }
    // The last node as often as all others: what is put there can break only one rule.
    let at = if random.below(2) == 0 { used - 1 } else { random.below(used) };
    let Node { fact, low, high } = Node::of(words[at]);
    let fork = |fact, low, high| Node { fact, low, high }.word();
    words[at] = match random.below(10) {
        0 => words[at] ^ 1 << random.below(32),
        1 => words[random.below(used)],
        2 => fork(fact, high, high),
        3 => fork(fact, at + 2 + random.below(2), high),
        4 => fork(fact, low, random.below(used + 2)),
        5 => fork(facts, 0, 1),
        6 => fork(fact, high, low),
        7 => 0,
        8 => fork(random.below(facts.max(1)), random.below(at + 2), random.below(at + 2)),
        _ => fork(fact, random.below(at + 2), random.below(at + 2)),
    };
}

/// Two nodes change their numbers, and all that names them follows: the functions stay, but a node may then stand
/// before its own side.
fn renumbered(memory: &mut Memory, program: &Program, random: &mut Random) {
    let (used, facts) = (used(memory), program.facts.len());
    if used < facts + 2 {
        return;
    }
    let [one, other] = [0; 2].map(|_: usize| facts + random.below(used - facts) + 2);
    let moved = |number: usize| match number {
        _ if number == one => other,
        _ if number == other => one,
        _ => number,
    };
    for word in &mut memory.lent.words[..used] {
        let Node { fact, low, high } = Node::of(*word);
        *word = Node { fact, low: moved(low), high: moved(high) }.word();
    }
    memory.lent.words.swap(one - 2, other - 2);
    for place in &mut memory.lent.places[..program.atoms()] {
        *place = moved((*place).into()) as u16;
    }
}

fn place(memory: &mut Memory, program: &Program, random: &mut Random) {
    let (used, atoms) = (used(memory), program.atoms());
    let places = &mut memory.lent.places;
    let (known, last) = (random.below(atoms.max(1)), PLACES - 1);
    // The place of an atom where all places are.
    let past = (atoms + random.below(PLACES + 1 - atoms)).min(last);
    let (at, value) = match random.below(7) {
        0 => (known, used + 2),
        1 => (known, random.pick(&[4_098, 8_191, 65_535])),
        2 => (random.pick(&[atoms.min(last), last, past]), 1),
        3 => (random.below(program.facts.len().max(1)), random.below(used + 2)),
        4 => (known, 1),
        5 => (known, used + 1),
        _ => (known, random.below(used + 2)),
    };
    places[at] = value as u16;
}

fn state(memory: &mut Memory, program: &Program, random: &mut Random) {
    let (size, facts) = (memory.lent.size() as u32, program.facts.len() as u32);
    let State { layer, nodes } = &mut memory.state;
    match random.below(8) {
        0 => memory.state = State::ZEROS,
        1 => *layer = random.pick(&[0, 255, 256, FINISHED - 1, FINISHED + 65_536, u32::MAX]),
        2 => *layer = layer.wrapping_add(random.pick(&[1, 256, 65_536])),
        3 => *layer = layers::above(program, random.below(4) as u32),
        4 => *layer = FINISHED,
        5 => *nodes = nodes.wrapping_add(random.pick(&[1, u32::MAX, 65_536, 1 << 31])),
        6 => *nodes = random.pick(&[0, facts, facts.wrapping_sub(1), size, size + 1, u32::MAX]),
        _ => *nodes = random.below(12) as u32,
    }
}

fn lengths(memory: &mut Memory, program: &Program, random: &mut Random) {
    let (used, facts) = (used(memory), program.facts.len());
    let lent = &mut memory.lent;
    match random.below(6) {
        0 => lent.places.truncate(PLACES - 1),
        1 => lent.places.truncate(program.atoms()),
        2 => lent.words.truncate(used.saturating_sub(1)),
        3 => lent.words.truncate(facts.saturating_sub(1)),
        4 => lent.places.extend([1, 65_535]),
        _ => {
            lent.words.resize(LARGEST, 0);
            lent.words.extend([1, u32::MAX]);
        }
    }
}

pub fn file(memory: &mut Memory, random: &mut Random) {
    let length = memory.file.len();
    match random.below(9) {
        0..=2 => memory.file[random.below(length)] ^= 1 << random.below(8),
        3 => memory.file.truncate(random.below(length)),
        4 => memory.file.push(0),
        5 => memory.file = encode(&worked::s()),
        6 | 7 => memory.file = faulty_program(random.draw() % 100_000),
        _ => memory.file = damaged_file(random.draw() % 100_000),
    }
}

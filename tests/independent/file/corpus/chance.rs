//! Files by chance. Each is made from its own number, so a file that differs can be made again alone.

use crate::support::encode::{encode, header, set2};
use crate::support::legal::{any_shape, legal, Shape};
use crate::support::program::{rule, Program};
use crate::support::random::Random;

const EDGES: [u16; 16] = [0, 1, 2, 3, 15, 16, 17, 28, 32, 33, 255, 256, 512, 2_048, 32_768, 65_535];

pub fn legal_file(number: u64) -> Vec<u8> {
    let mut random = Random::new(number);
    let shape = any_shape(&mut random);
    encode(&legal(&shape, &mut random))
}

/// Faults in the program value: its file's header and places still agree, so the later refusals are reached.
pub fn faulty_program(number: u64) -> Vec<u8> {
    let mut random = Random::new(number);
    let mut program = legal(&small_shape(&mut random), &mut random);
    for _ in 0..1 + random.below(4) {
        add_fault(&mut program, &mut random);
    }
    encode(&program)
}

/// Damage to the bytes of a legal or a faulty program.
pub fn damaged_file(number: u64) -> Vec<u8> {
    let mut random = Random::new(number);
    let mut program = legal(&small_shape(&mut random), &mut random);
    if random.below(4) == 0 {
        add_fault(&mut program, &mut random);
    }
    let mut bytes = encode(&program);
    for _ in 0..1 + random.below(3) {
        let at = place(&program, &mut random).min(bytes.len() - 1);
        damage(&mut bytes, at, &mut random);
    }
    bytes
}

/// A sound header and behind it bytes by chance: any bytes, or small ones, which get further.
pub fn random_bytes(number: u64) -> Vec<u8> {
    let mut random = Random::new(number);
    let (facts, derived, rules) = (random.size(33), random.size(513), random.size(2_049));
    let mut bytes = header(facts, derived, rules);
    let length = 4 * facts + derived + random.size(6 * rules + 8);
    let limit = random.pick(&[2, 3, 8, 256]);
    let sound = random.below(2) == 0;
    for at in 0..length {
        // Half of the files have sound facts and layers, or most would be refused with 5 or 7.
        let fixed = sound && at < 4 * facts + derived;
        bytes.push(if fixed { u8::from(at >= 4 * facts || at % 4 == 0) } else { random.below(limit) as u8 });
    }
    bytes
}

fn small_shape(random: &mut Random) -> Shape {
    Shape { facts: random.size(6), derived: random.size(8), rules: random.size(8), body: (0, 16) }
}

fn add_fault(program: &mut Program, random: &mut Random) {
    match random.below(20) {
        0 => program.facts.push((0, 0)),
        1 => program.facts.extend([(65_535, 65_535); 4]),
        2 => program.layers.push(0),
        3 => program.rules.push(rule(random.below(16) as u16, &[])),
        _ => change_rule(program, random),
    }
}

/// Does nothing to a program without rules.
fn change_rule(program: &mut Program, random: &mut Random) {
    if program.rules.is_empty() {
        return;
    }
    let number = random.below(program.rules.len());
    let changed = &mut program.rules[number];
    match random.below(4) {
        0 => changed.head = random.pick(&EDGES),
        1 => changed.body.resize(17, 0),
        _ => {
            let literal = random.below(40) as u16;
            let at = random.below(changed.body.len() + 1);
            changed.body.insert(at, literal);
        }
    }
}

/// The four parts of the file come equally often, whatever their sizes.
fn place(program: &Program, random: &mut Random) -> usize {
    let layers = 28 + 4 * program.facts.len();
    let rules = layers + program.layers.len();
    let parts = [(0, 28), (28, layers - 28), (layers, rules - layers), (rules, 60)];
    let (start, size) = random.pick(&parts);
    start + random.below(size.max(1))
}

fn damage(bytes: &mut Vec<u8>, at: usize, random: &mut Random) {
    match random.below(9) {
        0 => bytes[at] = random.draw() as u8,
        1 => bytes[at] = bytes[at].wrapping_add(1),
        2 => bytes[at] = bytes[at].wrapping_sub(1),
        3 => bytes[at] = 0,
        4 => drop(bytes.remove(at)),
        5 => bytes.insert(at, random.below(4) as u8),
        6 => bytes.truncate(at.max(1)),
        7 => bytes.extend(vec![0; 1 + random.below(9)]),
        _ if at + 2 <= bytes.len() => set2(bytes, at, random.pick(&EDGES)),
        _ => bytes.push(1),
    }
    // Further damage needs a byte to fall on.
    if bytes.is_empty() {
        bytes.push(0);
    }
}

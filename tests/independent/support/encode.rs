//! Writes files from program values. It tests nothing, so that faulty files can be written as well.

use crate::support::program::Program;

pub fn encode(program: &Program) -> Vec<u8> {
    let mut bytes = header(program.facts.len(), program.layers.len(), program.rules.len());
    for (on, off) in &program.facts {
        push2(&mut bytes, *on);
        push2(&mut bytes, *off);
    }
    bytes.extend(&program.layers);
    for rule in &program.rules {
        push2(&mut bytes, rule.head);
        push2(&mut bytes, rule.body.len() as u16);
        for literal in &rule.body {
            push2(&mut bytes, *literal);
        }
    }
    bytes
}

/// The first 28 bytes, with the offsets that follow from the counts.
pub fn header(facts: usize, derived: usize, rules: usize) -> Vec<u8> {
    let mut bytes = Vec::new();
    push2(&mut bytes, 1);
    push2(&mut bytes, 3);
    let entries = [(1, facts, 28), (2, derived, 28 + 4 * facts), (3, rules, 28 + 4 * facts + derived)];
    for (kind, items, offset) in entries {
        push2(&mut bytes, kind);
        push2(&mut bytes, items as u16);
        bytes.extend((offset as u32).to_le_bytes());
    }
    bytes
}

pub fn push2(bytes: &mut Vec<u8>, value: u16) {
    bytes.extend(value.to_le_bytes());
}

pub fn set2(bytes: &mut [u8], at: usize, value: u16) {
    bytes[at..at + 2].copy_from_slice(&value.to_le_bytes());
}

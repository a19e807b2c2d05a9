//! Legal files of every shape, and counts at their limit and one past.

use crate::support::encode::encode;
use crate::support::legal::{legal, of_length, Shape, LONGEST};
use crate::support::program::{not, rule, yes, Program};
use crate::support::random::Random;
use crate::support::worked;

/// What document 01 names under "Worked files, and the edges".
pub fn worked() -> Vec<Vec<u8>> {
    let mut programs = vec![worked::s(), worked::wet(), worked::graph()];
    let thirty_two = Program { facts: vec![(2, 2); 32], layers: vec![], rules: vec![] };
    programs.push(thirty_two.clone());
    for fact in [0, 15, 31] {
        let mut accepted = thirty_two.clone();
        accepted.facts[fact] = (1, 2);
        programs.push(accepted);
    }
    for literals in [16, 17] {
        programs.push(Program { facts: vec![(1, 1)], layers: vec![1], rules: vec![rule(1, &vec![yes(0); literals])] });
    }
    programs.iter().map(encode).collect()
}

/// Every mix of least and largest counts, with empty, short, full and mixed bodies.
pub fn sizes() -> Vec<Vec<u8>> {
    let mut random = Random::new(1);
    let mut files = Vec::new();
    for facts in [0, 1, 2, 31, 32] {
        for derived in [0, 1, 2, 511, 512] {
            for rules in [0, 1, 2, 2_047, 2_048] {
                for body in [(0, 0), (1, 1), (13, 13), (16, 16), (0, 16)] {
                    let shape = Shape { facts, derived, rules, body };
                    files.push(encode(&legal(&shape, &mut random)));
                }
            }
        }
    }
    files
}

/// What document 01 calls legal although it looks odd.
pub fn oddities() -> Vec<Vec<u8>> {
    let twice = rule(2, &[yes(0), not(1)]);
    let bodies: [&[u16]; 8] = [
        &[],
        &[yes(0), yes(0)],
        &[not(0), not(0), not(0)],
        &[yes(0), not(0)],
        &[not(1), yes(1), not(1)],
        &[yes(2)],
        &[yes(2), yes(3), not(0)],
        &[yes(2); 16],
    ];
    let mut programs: Vec<Program> = Vec::new();
    for layers in [[1, 1], [7, 7], [255, 255], [200, 3]] {
        let program = Program { facts: vec![(0, 1), (1, 0)], layers: layers.to_vec(), rules: vec![] };
        programs.extend(bodies.map(|body| Program { rules: vec![rule(2, body)], ..program.clone() }));
        programs.push(Program { rules: vec![twice.clone(), twice.clone(), twice.clone()], ..program.clone() });
        programs.push(Program { rules: bodies.map(|body| rule(2, body)).to_vec(), ..program });
    }
    programs.iter().map(encode).collect()
}

/// Each count at its largest and one past it, and far past, alone and together.
pub fn count_limits() -> Vec<Vec<u8>> {
    let mut random = Random::new(2);
    let mut files = Vec::new();
    for facts in [0, 31, 32, 33, 34, 255, 256] {
        for derived in [1, 511, 512, 513, 767, 768] {
            for rules in [0, 2_047, 2_048, 2_049, 4_096] {
                let shape = Shape { facts, derived, rules, body: (0, 1) };
                files.push(encode(&legal(&shape, &mut random)));
            }
        }
    }
    files
}

/// A body of every length up to 40, as the first, a middle and the last rule.
pub fn body_limits() -> Vec<Vec<u8>> {
    let mut files = Vec::new();
    for literals in 0..=40 {
        for place in 0..3 {
            let mut program = Program { facts: vec![(1, 1)], layers: vec![1, 2], rules: vec![] };
            program.rules = vec![rule(1, &[yes(0)]); 3];
            program.rules[place] = rule(2, &vec![not(1); literals]);
            files.push(encode(&program));
        }
    }
    files
}

/// Lengths about the longest, and those that are legal again where a length is cut to 2 bytes.
pub fn lengths() -> Vec<Vec<u8>> {
    let mut random = Random::new(3);
    let mut files = Vec::new();
    // 1,802 rules of 16 literals are the longest bodies in the longest file.
    files.push(encode(&of_length(LONGEST, 508, 1_802, &mut random)));
    for (derived, rules) in [(508, 1_810), (512, 2_048), (2, 1_820)] {
        files.push(encode(&of_length(LONGEST - 2, derived, rules, &mut random)));
        files.push(encode(&of_length(LONGEST - 1, derived - 1, rules, &mut random)));
        files.push(encode(&of_length(LONGEST, derived, rules, &mut random)));
        files.push(encode(&of_length(LONGEST + 1, derived - 1, rules, &mut random)));
        files.push(encode(&of_length(LONGEST + 2, derived, rules, &mut random)));
    }
    let s = encode(&worked::s());
    for added in [LONGEST - 74, LONGEST - 73, LONGEST, LONGEST + 28, 2 * LONGEST, 1 << 20] {
        files.push([&s[..], &vec![0; added]].concat());
    }
    files
}

//! The worked files of document 01 as program values.

use crate::support::program::{not, rule, yes, Program};

/// File S as the document prints it.
pub const S_TEXT: &str = "
01 00 03 00 01 00 02 00 1C 00 00 00 02 00 04 00 24 00 00 00
03 00 05 00 28 00 00 00 01 00 03 00 02 00 03 00 01 01 01 02
02 00 01 00 00 00 02 00 01 00 06 00 03 00 02 00 04 00 02 00
04 00 01 00 06 00 05 00 02 00 04 00 07 00";

pub fn s() -> Program {
    Program {
        facts: vec![(1, 3), (2, 3)],
        layers: vec![1, 1, 1, 2],
        rules: vec![
            rule(2, &[yes(0)]),
            rule(2, &[yes(3)]),
            rule(3, &[yes(2), yes(1)]),
            rule(4, &[yes(3)]),
            rule(5, &[yes(2), not(3)]),
        ],
    }
}

/// P9 and P10: wet if either fact holds.
pub fn wet() -> Program {
    Program { facts: vec![(3, 7), (2, 8)], layers: vec![1], rules: vec![rule(2, &[yes(0)]), rule(2, &[yes(1)])] }
}

/// Edges of P11's graph over the nodes a = 0, b = 1, c = 2: ba, bc, ac, ca.
const EDGES: [(u16, u16); 4] = [(1, 0), (1, 2), (0, 2), (2, 0)];

/// The atom for a path in `graph`.
pub fn path(from: u16, to: u16) -> u16 {
    4 + 3 * from + to
}

/// P11 and P12: a path is an edge, or an edge and then a path.
pub fn graph() -> Program {
    let mut rules = Vec::new();
    for (edge, (from, to)) in (0u16..).zip(EDGES) {
        rules.push(rule(path(from, to), &[yes(edge)]));
        for end in 0..3 {
            rules.push(rule(path(from, end), &[yes(edge), yes(path(to, end))]));
        }
    }
    Program { facts: vec![(1, 1); 4], layers: vec![1; 9], rules }
}

//! Numbers, texts and bytes worked out on paper: this program must give them before its text may judge the library.
//! Each check returns the number of scripts it looked at.

use super::function::Function;
use super::mutant::Mutant;
use super::numbering::Numbering;
use super::play::{play, text};
use super::script::{encode, Script, Step, AND, FACT, LARGEST, NOT, OR};
use super::scripts::{both_sides_new, every_function, file_s};
use super::table::Table;
use crate::support::checked::{same, Checked};

/// P7: built alone in an empty store, the numbers are those of the listing.
pub fn listing() -> Checked {
    let mut numbering = Numbering::new(Mutant::None);
    let root = numbering.build(&Table::fact(0).and(&Table::fact(1)));
    let mut listing = vec![2, numbering.nodes.len(), root];
    listing.extend(numbering.nodes.iter().flat_map(|node| [usize::from(node.fact), node.low, node.high]));
    let bytes: Vec<String> = listing.iter().map(|number| format!("{number:02X} 00")).collect();
    same("listing", bytes.join(" ").as_str(), "02 00 02 00 03 00 01 00 00 00 01 00 00 00 00 00 02 00")?;
    Ok(1)
}

/// Worked out on paper. The first two are P8: file S needs 6 nodes, and with 5 atom 5 has no room.
pub fn texts() -> Checked {
    let expected = [
        (6, file_s(), "done 5 6\n2 3 4 6 7\n0/0/1 1/0/1 0/0/3 1/1/0 0/1/5 0/0/5\n"),
        (5, file_s(), "full 4 5\n2 3 4 6\n0/0/1 1/0/1 0/0/3 1/1/0 0/1/5\n"),
        (4, file_s(), "full 3 3\n2 3 4\n0/0/1 1/0/1 0/0/3\n"),
        (
            10,
            both_sides_new(),
            "done 8 10\n2 3 4 5 6 7 8 11\n0/0/1 1/0/1 2/0/1 0/0/3 0/1/0 0/4/0 0/4/3 2/1/0 1/1/0 0/9/10\n",
        ),
        (0, file_s(), "full 0 0\n\n\n"),
        (0, vec![], "done 0 0\n\n\n"),
        (0, vec![Step::new(AND, 0, 0)], "bad 0 0\n\n\n"),
        (9, vec![Step::new(FACT, 31, 0), Step::new(NOT, 1, 0)], "bad 1 1\n2\n31/0/1\n"),
        (9, vec![Step::new(FACT, 32, 0)], "bad 0 0\n\n\n"),
    ];
    for (size, steps, expected) in &expected {
        let script = Script { size: *size, steps: steps.clone() };
        same("text", text(&[script], Mutant::None).as_str(), expected)?;
    }
    Ok(expected.len())
}

pub fn bytes() -> Checked {
    let first = Script { size: LARGEST, steps: vec![Step::new(FACT, 31, 0), Step::new(NOT, 0, 0)] };
    let second = Script { size: 3, steps: vec![Step::new(OR, 258, 1)] };
    let expected = [0, 16, 2, 0, 0, 31, 0, 0, 0, 3, 0, 0, 0, 0, 3, 0, 1, 0, 2, 2, 1, 1, 0];
    same("bytes", encode(&[first, second]), expected.to_vec())?;
    Ok(2)
}

/// A script ends there, whatever follows.
pub fn last_result() -> Checked {
    let counts = [1_023, 1_024, 1_025, 1_100];
    for count in counts {
        let steps = vec![Step::new(FACT, 5, 0); count];
        let text = text(&[Script { size: 1, steps }], Mutant::None);
        let results = count.min(1_024);
        same("text", text, format!("done {results} 1\n{}2\n5/0/1\n", "2 ".repeat(results - 1)))?;
    }
    Ok(counts.len())
}

/// Of n facts there are 2^(2^n) functions; all but never and always are nodes.
pub fn few_facts() -> Checked {
    for (facts, nodes) in [(vec![0], 2), (vec![0, 1], 14), (vec![5, 2], 14), (vec![0, 1, 2], 254)] {
        let script = Script { size: LARGEST, steps: every_function(&facts) };
        same("nodes", play(&script, Mutant::None).nodes.len(), nodes)?;
    }
    Ok(4)
}

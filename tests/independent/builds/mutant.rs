//! Wrong readings of the builds. Each must change the expected text, or the scripts would not see a library or a
//! test program that goes wrong the same way.

#[derive(Clone, Copy, Debug, PartialEq)]
pub enum Mutant {
    /// The honest reading.
    None,

    // Numbering.
    HighSideFirst,
    NodeBeforeSides,
    /// A sum built as the negation of a conjunction of negations, whose nodes stay.
    SumByNegations,

    // Full.
    FullAtLast,
    FullOneLate,
    FullKeepsNodes,

    // What is valid, and where a script ends.
    LastFactBad,
    FactAtEndTaken,
    /// A result one past the last reads as never.
    OperandAtEndTaken,
    OperandsInOneByte,
    OneResultLess,
    OneResultMore,
}

pub fn all() -> Vec<Mutant> {
    use Mutant::*;
    let numbering = [HighSideFirst, NodeBeforeSides, SumByNegations];
    let full = [FullAtLast, FullOneLate, FullKeepsNodes];
    let valid = [LastFactBad, FactAtEndTaken, OperandAtEndTaken, OperandsInOneByte, OneResultLess, OneResultMore];
    [&numbering[..], &full, &valid].concat()
}

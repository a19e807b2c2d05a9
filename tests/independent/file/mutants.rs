//! Wrong readings of document 01. The reader of reader.rs takes one of them and goes wrong in that one thing.
//! Each must show on some file of the corpus, or the corpus would not see a library that goes wrong the same way.

use crate::file;
use crate::file::boundary::Counts;

#[derive(Clone, Copy, Debug, PartialEq)]
pub enum Limit {
    Shortest,
    Longest,
    Facts,
    Derived,
    Rules,
    Body,
    Total,
}

#[derive(Clone, Copy, Debug, PartialEq)]
pub enum Mutant {
    /// The honest reader.
    None,

    // The same for many places.
    /// A limit one lower, as with >= for >.
    Lower(Limit),
    /// A limit one higher.
    Higher(Limit),
    /// The detail of one refusal is one too high.
    Detail(u32),
    /// This test of the file comes after its successor; 0 is refusal 1, 7 are the rules.
    FileOrder(usize),
    /// This test of a rule comes after its successor: header, length, body present, head, literals.
    RuleOrder(usize),
    /// This byte of the header reads as 0, as where a number is read too narrow.
    ReadsZero(usize),

    // Contents.
    LengthInTwoBytes,
    KindsInAnyOrder,
    CountsInContents,
    EntryByEntry,
    OffsetAtEndIsPast,
    OffsetPastEndTaken,

    // Facts and layers.
    EitherWeightZero,
    LastFactNamed,
    WeightsBigEndian,
    TotalWraps,
    TotalSigned,
    TotalOfNoFactsZero,
    LastLayerNamed,
    LayerNamedWithoutFacts,
    LayerGapRefused,
    LayerTopRefused,

    // Rules.
    HeaderInTwoBytes,
    BodyOneByteShort,
    EmptyBodyRefused,
    HeadLastFactTaken,
    HeadFirstDerivedRefused,
    HeadAtEndTaken,
    LiteralAtEndTaken,
    LiteralLastAtomRefused,
    UnknownIsEleven,
    TensBeforeElevens,
    ElevensBeforeTens,
    LastLiteralFirst,
    SignReversed,
    EqualNegatedTaken,
    EqualPositiveRefused,
    LayersSigned,
    FactsInLayerOne,
    RepeatedRuleRefused,
    RepeatedLiteralRefused,
    OwnNegationRefused,
    ShapesBeforeAtoms,
    LeftoverTaken,
    LeftoverWithoutRulesTaken,
    LeftoverNamesLastRule,

    // Answers.
    CountsWithRefusal,
    TotalWithRefusal,
    DerivedCountsFacts,

    // Request L4: "after loading's refusals through the leftover test, 11 left out".
    ElevenKept,
    /// A literal that breaks the given layers ends the tests of its body.
    ElevenEndsBody,
    /// It ends all tests.
    ElevenEndsTests,
    /// 5 and 6 left out, too.
    WeightsUntested,
    /// 7 left out, too.
    GivenLayersUntested,
}

pub fn all() -> Vec<Mutant> {
    let limits =
        [Limit::Shortest, Limit::Longest, Limit::Facts, Limit::Derived, Limit::Rules, Limit::Body, Limit::Total];
    let mut mutants = limits.map(Mutant::Lower).to_vec();
    mutants.extend(limits.map(Mutant::Higher));
    mutants.extend((1..=11).map(Mutant::Detail));
    mutants.extend((0..7).map(Mutant::FileOrder));
    mutants.extend((0..4).map(Mutant::RuleOrder));
    // The high byte of each 2-byte number, and the upper two bytes of each offset.
    mutants.extend([1, 3, 5, 7, 10, 11, 13, 15, 18, 19, 21, 23, 26, 27].map(Mutant::ReadsZero));
    mutants.extend(single());
    mutants
}

fn single() -> Vec<Mutant> {
    use Mutant::*;
    let contents =
        [LengthInTwoBytes, KindsInAnyOrder, CountsInContents, EntryByEntry, OffsetAtEndIsPast, OffsetPastEndTaken];
    let facts = [EitherWeightZero, LastFactNamed, WeightsBigEndian, TotalWraps, TotalSigned, TotalOfNoFactsZero];
    let layers = [LastLayerNamed, LayerNamedWithoutFacts, LayerGapRefused, LayerTopRefused];
    let shapes = [
        HeaderInTwoBytes,
        BodyOneByteShort,
        EmptyBodyRefused,
        ShapesBeforeAtoms,
        LeftoverTaken,
        LeftoverWithoutRulesTaken,
        LeftoverNamesLastRule,
    ];
    let heads = [HeadLastFactTaken, HeadFirstDerivedRefused, HeadAtEndTaken];
    let literals = [
        LiteralAtEndTaken,
        LiteralLastAtomRefused,
        UnknownIsEleven,
        TensBeforeElevens,
        ElevensBeforeTens,
        LastLiteralFirst,
        SignReversed,
        EqualNegatedTaken,
        EqualPositiveRefused,
        LayersSigned,
        FactsInLayerOne,
    ];
    let repeats = [RepeatedRuleRefused, RepeatedLiteralRefused, OwnNegationRefused];
    let answers = [CountsWithRefusal, TotalWithRefusal, DerivedCountsFacts];
    [&contents[..], &facts, &layers, &shapes, &heads, &literals, &repeats, &answers].concat()
}

/// Those that show in reach_layers: it has none of the counts that reach_read answers, and no 11 to get wrong.
pub fn without_eleven() -> Vec<Mutant> {
    use Mutant::*;
    let of_counts = [TotalOfNoFactsZero, CountsWithRefusal, TotalWithRefusal, DerivedCountsFacts];
    let of_layers = [SignReversed, EqualNegatedTaken, EqualPositiveRefused, LayersSigned, FactsInLayerOne];
    // Without 11, a bad head and a bad literal of one rule give the same.
    let of_orders = [Detail(11), RuleOrder(3), TensBeforeElevens, ElevensBeforeTens, LastLiteralFirst];
    let hidden = [&of_counts[..], &of_layers, &of_orders].concat();
    let own = [ElevenKept, ElevenEndsBody, ElevenEndsTests, WeightsUntested, GivenLayersUntested];
    all().into_iter().filter(|mutant| !hidden.contains(mutant)).chain(own).collect()
}

/// The mutants that no file has shown yet, and where the others showed first.
pub struct Watch {
    pub hidden: Vec<Mutant>,
    pub shown: Vec<(Mutant, String)>,
}

impl Watch {
    pub fn new() -> Watch {
        Watch { hidden: all(), shown: Vec::new() }
    }

    /// Held against the library's answer, not against the honest reader's: what counts is that this library
    /// could be told from a wrong one.
    pub fn look(&mut self, file: &[u8], library: &Counts, place: impl Fn() -> String) {
        let (shown, hidden) = self.hidden.iter().partition(|mutant| file::counts(file, **mutant) != *library);
        self.hidden = hidden;
        let shown: Vec<Mutant> = shown;
        self.shown.extend(shown.into_iter().map(|mutant| (mutant, place())));
    }
}

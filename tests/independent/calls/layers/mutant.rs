//! Wrong readings of request L4, each under the sentence that it misreads. Each must be told from the right answer on
//! some file, or the files would not see a library that goes wrong the same way.

use crate::file::mutants;

#[derive(Clone, Copy, Debug, PartialEq)]
pub enum Mutant {
    /// The honest reading.
    None,

    /// Reads the file wrongly.
    File(mutants::Mutant),

    // "From the rules alone ..."
    GivenLayersAnswered,
    /// The given layers are only raised.
    GivenLayersKept,
    /// Only the last rule of an atom counts.
    LastRuleDecides,
    FirstLiteralDecides,
    SixteenthLiteralUnread,
    /// A body with an atom beside its own negation is left out, since it can never hold.
    DeadBodiesSkipped,
    /// One pass through the rules in file order.
    RulesReadOnce,

    // "... work out the smallest layer of every derived atom ..."
    PlainRaises,
    NegatedDoesNotRaise,
    /// A negated literal raises the whole body's atoms.
    WholeBodyNegated,
    /// A body with an atom plain and negated counts as plain.
    PlainBesideNegated,
    /// Legal, but a plain link from one ring to another raises.
    LegalButNotSmallest,
    /// Legal, but the layers are numbered from the top, each as high as the highest allows.
    LegalFromTheTop,
    NegatedFactForcesTwo,
    /// An atom with no rule never holds, so its negation raises nothing.
    NoRuleRaisesNothing,
    /// A rule with an empty body makes its head a fact, whose negation raises nothing.
    EmptyBodyRaisesNothing,

    // "... at least 1."
    NoRuleAtZero,
    LayersFromZero,

    // "Refused exactly when some atom depends on itself through a chain of rules ..."
    PlainRingRefused,
    OwnNegationTaken,
    /// Only a chain on which no atom comes again.
    AtomsComeOnce,
    // "... at least one of whose links is a negated literal ..."
    EvenNegationsTaken,

    // "... and the refusal shows such a chain."
    NoChainWritten,
    EmptyChainShown,
    ChainWithoutNegation,

    // "Layers go to the output as D bytes."
    LayersInTwoBytes,
    LayersOfFactsToo,
    LengthIsRoom,

    // "A count, then at most 1,023 rule numbers, 2 bytes each ..."
    CountInBytes,
    CountMissing,
    /// Twice round, where the output has room.
    ChainTwice,
    RulesFromOne,
    AtomsShown,
    ChainBigEndian,
    LengthWithoutCount,
    NoLengthAtTwentyFour,
    // "... the first rule's head the atom named ..."
    SecondRuleFirst,
    // "... each body holding the next head, plain or negated, the last the first."
    ChainBackward,
    LastRuleMissing,
    FirstRuleAgain,

    // "Bytes beyond are kept."
    RestCleared,
    RestClearedAtTwentyFour,

    // "21 first, if the output is under 2,048 bytes."
    TwentyOneAfterFile,
    TwentyOneByNeed,
    NoAtomsNeedNoRoom,
    OneByteLessTaken,
    OneByteMoreNeeded,
    RoomInTwoBytes,

    // "24, no layers exist, detail the lowest atom on any such chain ..."
    DependentsNamed,
    /// What a chain depends on.
    FedNamed,
    FirstInRuleOrderNamed,
    HighestNamed,
    /// Only heads of negated links.
    NegatedLinkNamed,
    NamedWithoutFacts,
    // "... after loading's refusals through the leftover test ..."
    TwentyFourBeforeLeftover,

    // "37, a layer over 255 ..."
    TwoFiftyFiveTooHigh,
    TwoFiftySixTaken,
    LayersWrap,
    LayersCapped,
    // "... where a layers body is to be written ..."
    LayersWrittenAtThirtySeven,
    LengthAtThirtySeven,
    // "... detail the lowest such atom ..."
    LowestLayerNamed,
    HighestLayerNamed,
    HighNamedWithoutFacts,
    // "... after 24."
    ThirtySevenBeforeTwentyFour,
}

pub fn all() -> Vec<Mutant> {
    let files = mutants::without_eleven().into_iter().map(Mutant::File);
    files.chain(of_layers()).chain(of_chains()).chain(of_refusals()).collect()
}

fn of_layers() -> Vec<Mutant> {
    use Mutant::*;
    let given = [GivenLayersAnswered, GivenLayersKept];
    let read = [LastRuleDecides, FirstLiteralDecides, SixteenthLiteralUnread, DeadBodiesSkipped, RulesReadOnce];
    let raised = [PlainRaises, NegatedDoesNotRaise, WholeBodyNegated, PlainBesideNegated];
    let smallest = [LegalButNotSmallest, LegalFromTheTop, NegatedFactForcesTwo];
    let least = [NoRuleRaisesNothing, EmptyBodyRaisesNothing, NoRuleAtZero, LayersFromZero];
    let written = [LayersInTwoBytes, LayersOfFactsToo, LengthIsRoom, RestCleared];
    [&given[..], &read, &raised, &smallest, &least, &written].concat()
}

fn of_chains() -> Vec<Mutant> {
    use Mutant::*;
    let refused = [PlainRingRefused, OwnNegationTaken, AtomsComeOnce, EvenNegationsTaken];
    let shown = [NoChainWritten, EmptyChainShown, ChainWithoutNegation];
    let counted = [CountInBytes, CountMissing, ChainTwice, LengthWithoutCount, NoLengthAtTwentyFour];
    let numbers = [RulesFromOne, AtomsShown, ChainBigEndian];
    let linked = [SecondRuleFirst, ChainBackward, LastRuleMissing, FirstRuleAgain, RestClearedAtTwentyFour];
    [&refused[..], &shown, &counted, &numbers, &linked].concat()
}

fn of_refusals() -> Vec<Mutant> {
    use Mutant::*;
    let rooms = [TwentyOneAfterFile, TwentyOneByNeed, NoAtomsNeedNoRoom];
    let limits = [OneByteLessTaken, OneByteMoreNeeded, RoomInTwoBytes];
    let named = [DependentsNamed, FedNamed, FirstInRuleOrderNamed, HighestNamed, NegatedLinkNamed, NamedWithoutFacts];
    let high = [TwoFiftyFiveTooHigh, TwoFiftySixTaken, LayersWrap, LayersCapped];
    let written = [LayersWrittenAtThirtySeven, LengthAtThirtySeven];
    let details = [LowestLayerNamed, HighestLayerNamed, HighNamedWithoutFacts];
    let orders = [TwentyFourBeforeLeftover, ThirtySevenBeforeTwentyFour];
    [&rooms[..], &limits, &named, &high, &written, &details, &orders].concat()
}

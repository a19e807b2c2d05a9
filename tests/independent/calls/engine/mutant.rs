//! Wrong readings of document 01's calls, each under the sentence that it misreads. Each must change the expected
//! text of some job, or the jobs would not see a library that goes wrong the same way.

#[derive(Clone, Copy, Debug, PartialEq)]
pub enum Mutant {
    /// The honest reading.
    None,

    // "An update of an atom goes through its rules in file order."
    RulesReversed,

    // "Each body starts at always and is conjoined with its literals in order (a negated one is negated first)."
    EmptyBodyNever,
    LiteralsReversed,
    /// All negations of a body before its conjunctions.
    BodyNegationsFirst,
    /// All negations of all bodies before anything else.
    AllNegationsFirst,

    // "The result joins a running sum that starts at never."
    /// All bodies are built before any of them joins.
    BodiesFirst,
    SumFromAtom,
    /// As the negation of a conjunction of negations, whose nodes stay.
    SumByNegations,

    // "No step is skipped."
    NeverBodyStops,
    AlwaysSumStops,

    // "The atom then gets that sum; no other atom changes."
    WholeLayerUpdated,

    // "All these functions, the literals' included, are built."
    NegationsUnbuilt,
    /// A body is built only when it is whole.
    PartsOfBodiesUnbuilt,
    BodiesUnbuilt,
    SumsUnbuilt,
    OnlyLastBuilt,
    /// Where the atom did not change.
    UnchangedTakenBack,
    /// Nodes that no place leads to are taken out after each update.
    UnreachedTakenOut,

    // "New nodes of a built function get the next numbers in listing order."
    HighSideFirst,
    NodeBeforeSides,
    /// The whole sum before the functions on the way to it.
    LastBuiltFirst,

    // "The different non-constant functions, got by fixing facts 0..k-1 for some k from nodes in use or anything
    // built in the present call, number more than N."
    FullAtLast,
    FullOneLate,
    ConstantsCount,
    /// A function met at several k counts at each.
    EveryKCounts,
    OnlyWholeFunctionsCount,
    /// Where all is too much but the sum is not, only the sum is kept.
    OnlySumCounts,

    // "Each returns its number and a detail and leaves all lent memory as it was."
    FullKeepsNodes,
    /// The count is as before, the entries are not.
    FullKeepsWords,

    // "A longer lent store is used only that far."
    LongStoreUsed,

    // "All other places are 0." "Unused entries among the N are zero."
    LoadingKeepsPlaces,
    LoadingKeepsWords,

    // "The layer in work starts at the lowest layer that has atoms." "With D = 0 it is finished at once."
    StartsAtLayerOne,
    StartsAtFirstAtom,
    NoAtomsUnfinished,

    // "13: no such atom. 14: atom not of the layer in work." "Update: 13, 14, 12."
    FactsUnknown,
    AtomAtEndKnown,
    AtomInTwoBytes,
    FourteenInFinishedFirst,
    LowerLayersTaken,
    HigherLayersTaken,
    TwelveBeforeFourteen,

    // "Closing checks the layer's atoms."
    NothingChecked,
    OnlyFirstChecked,

    // "The check stops at the first atom, in ascending order, whose rules would change it or whose check is full."
    LastStopNamed,
    FullAnywhereFirst,
    FullUnseenInClosing,

    // "Each atom's check starts from the store as it stood and is taken back."
    ChecksPileUp,
    CheckStays,

    // "If none stops it, the next layer that has atoms is in work."
    NextNumber,

    // "Close: 16, then 12 or 15 at the atom that stops the check, 12 first." "A detail (0 where none is named)."
    FinishedClosesAgain,
    FifteenBeforeTwelve,
    FullNamesAtom,
    UnsettledWithoutFacts,

    // "Run updates the layer's atoms in ascending order, round after round."
    RoundDescends,
    /// All updates of a round read the values before it.
    RoundAtOnce,
    OnlyAtomsWithRules,
    RunEndsWithLayer,

    // "After a full round that changed no atom it closes the layer, free of charge."
    SettledTakesNoRound,
    /// Also where the changeless updates belong to two rounds.
    ChangelessInARowCloses,
    LastAtomDecides,
    /// A round that built nodes is not settled, also where no atom changed.
    NewNodesAreChange,
    /// Only a round that built nodes is not settled.
    OnlyNewNodesAreChange,
    ClosingCharged,

    // "Run takes a budget of updates." "A budget below a layer's size can never close it."
    BudgetInTwoBytes,
    BudgetForEachLayer,
    SpentCloses,

    // "Finished comes before spent, spent before full." "The state is that after exactly those updates."
    SpentBeforeFinished,
    /// Also where the run is finished.
    NoBudgetIsSpent,
    FullBeforeSpent,
    FullCounted,
    FullTakesRunBack,

    // "Every later call: 36 first." "A later call's file, store and passed numbers fit together when ..."
    /// A later call gives a bad file its own number.
    BadFileOwnNumber,
    ThirteenBeforeThirtySix,
    // "... the node count is F to N, facts' nodes and places are as loaded ..."
    LastEntryUnused,
    FactNodesUntested,
    FactPlacesUntested,
    // "... every node obeys the rules above with its sides numbered below it ..."
    EqualNodesTaken,
    EqualSidesTaken,
    FactsNeedNotRise,
    SidesAbove,
    UnknownFactsTaken,
    // "... unused entries and places are 0 ..."
    UnusedWordsUntested,
    UnusedPlacesUntested,
    /// Entries from 4,096 on must be 0, too.
    BeyondTested,
    // "... the other places name nodes in use ..."
    AlwaysNotInUse,
    LastNodeNotInUse,
    OnePastInUse,
    // "... and the layer in work has atoms or the run is finished."
    AnyLayerFits,
    ZeroIsFinished,
    LayerInTwoBytes,
    // "Fewer than 544 atom places."
    ShortPlacesTaken,

    // "Weight so far of any atom comes from its present diagram."
    WeightNeedsFinish,
    WeightOfLayersInWorkOnly,
    FactsHaveNoWeight,
    // "Forgetting facts that a diagram skips."
    SkippedFactsForgotten,
    WeightInFourBytes,

    // "Both need N + 2 working numbers, which are 0 after an answer or refusal 20; numbers beyond keep their values."
    OneNumberLess,
    OneNumberMore,
    NumbersByNodesInUse,
    NumbersByLentLength,
    NumbersKept,
    AllNumbersCleared,
    NodesInUseCleared,
    NumbersKeptAtTwenty,
    NumbersClearedAtRefusal,

    // "Weight so far: 13, 19. Given evidence: 17, 18, 13, 19, 12, 20."
    NineteenBeforeThirteen,
    GivenUnfinished,
    EighteenBeforeSeventeen,
    ThirteenBeforeEighteen,
    NineteenBeforeEighteen,
    TwelveUnseenInGiven,
    TwentyBeforeTwelve,
    // "Over 64 evidence literals." "No such atom." "Evidence of weight 0."
    SixtyFourTooMany,
    SixtyFiveTaken,
    UnknownEvidenceTaken,
    UnknownEvidenceNamed,
    TwentyByDiagram,
    TwentyByBoth,

    // "Starting at always, it conjoins the evidence literals in order, built as in an update, then the query atom, and
    // takes those nodes back."
    EvidenceReversed,
    EvidenceUpToNever,
    EvidenceNegationsUnbuilt,
    EvidencePartsUnbuilt,
    QueryUnbuilt,
    QueryBeforeEvidence,
    GivenKeepsNodes,
    // "Two numbers, not reduced."
    SharesReduced,

    // "Listing: 17, 13, 21." "Listing longer than the output."
    ListedUnfinished,
    ThirteenBeforeSeventeen,
    TwentyOneBeforeThirteen,
    OneByteShortTaken,
    OneByteMoreNeeded,
    LengthAtTwentyOne,
    // "Leaves all lent memory as it was." "Bytes beyond are kept."
    PartWritten,
    RestOfOutputCleared,
    // "Numbers from 2, children before parents, low side first, each node once."
    HighSideListedFirst,
    ParentsListedFirst,
    WholeStoreListed,
    ConstantsListed,
    RootCountedFromZero,
}

pub fn all() -> Vec<Mutant> {
    use Mutant::*;
    let order = [RulesReversed, EmptyBodyNever, LiteralsReversed, BodyNegationsFirst, AllNegationsFirst];
    let sums = [BodiesFirst, SumFromAtom, SumByNegations, NeverBodyStops, AlwaysSumStops, WholeLayerUpdated];
    let built = [NegationsUnbuilt, PartsOfBodiesUnbuilt, BodiesUnbuilt, SumsUnbuilt, OnlyLastBuilt];
    let numbers = [UnchangedTakenBack, UnreachedTakenOut, HighSideFirst, NodeBeforeSides, LastBuiltFirst];
    let full = [FullAtLast, FullOneLate, ConstantsCount, EveryKCounts, OnlyWholeFunctionsCount, OnlySumCounts];
    let memory = [FullKeepsNodes, FullKeepsWords, LongStoreUsed, LoadingKeepsPlaces, LoadingKeepsWords];
    let starts = [StartsAtLayerOne, StartsAtFirstAtom, NoAtomsUnfinished];
    let atoms = [FactsUnknown, AtomAtEndKnown, AtomInTwoBytes, FourteenInFinishedFirst];
    let layers = [LowerLayersTaken, HigherLayersTaken, TwelveBeforeFourteen];
    let checks = [NothingChecked, OnlyFirstChecked, LastStopNamed, FullAnywhereFirst, FullUnseenInClosing];
    let closings = [ChecksPileUp, CheckStays, NextNumber, FinishedClosesAgain];
    let details = [FifteenBeforeTwelve, FullNamesAtom, UnsettledWithoutFacts];
    let rounds = [RoundDescends, RoundAtOnce, OnlyAtomsWithRules, RunEndsWithLayer, SettledTakesNoRound];
    let settled = [ChangelessInARowCloses, LastAtomDecides, NewNodesAreChange, OnlyNewNodesAreChange, ClosingCharged];
    let budgets = [BudgetInTwoBytes, BudgetForEachLayer, SpentCloses];
    let outcomes = [SpentBeforeFinished, NoBudgetIsSpent, FullBeforeSpent, FullCounted, FullTakesRunBack];
    let updates = [&order[..], &sums, &built, &numbers, &full, &memory].concat();
    [&updates[..], &starts, &atoms, &layers, &checks, &closings, &details, &rounds, &settled, &budgets, &outcomes]
        .concat()
}

/// Those of 36 and of questions, which no job shows: sessions do.
pub fn asked() -> Vec<Mutant> {
    [of_fitting(), of_weights(), of_listings()].concat()
}

fn of_fitting() -> Vec<Mutant> {
    use Mutant::*;
    let files = [BadFileOwnNumber, ThirteenBeforeThirtySix, LastEntryUnused, FactNodesUntested, FactPlacesUntested];
    let nodes = [EqualNodesTaken, EqualSidesTaken, FactsNeedNotRise, SidesAbove, UnknownFactsTaken];
    let unused =
        [UnusedWordsUntested, UnusedPlacesUntested, BeyondTested, AlwaysNotInUse, LastNodeNotInUse, OnePastInUse];
    let states = [AnyLayerFits, ZeroIsFinished, LayerInTwoBytes, ShortPlacesTaken];
    [&files[..], &nodes, &unused, &states].concat()
}

fn of_weights() -> Vec<Mutant> {
    use Mutant::*;
    let weights =
        [WeightNeedsFinish, WeightOfLayersInWorkOnly, FactsHaveNoWeight, SkippedFactsForgotten, WeightInFourBytes];
    let room = [OneNumberLess, OneNumberMore, NumbersByNodesInUse, NumbersByLentLength];
    let cleared = [NumbersKept, AllNumbersCleared, NodesInUseCleared, NumbersKeptAtTwenty, NumbersClearedAtRefusal];
    let first = [
        NineteenBeforeThirteen,
        GivenUnfinished,
        EighteenBeforeSeventeen,
        ThirteenBeforeEighteen,
        NineteenBeforeEighteen,
    ];
    let later = [TwelveUnseenInGiven, TwentyBeforeTwelve, SixtyFourTooMany, SixtyFiveTaken];
    let evidence = [UnknownEvidenceTaken, UnknownEvidenceNamed, TwentyByDiagram, TwentyByBoth];
    let built = [EvidenceReversed, EvidenceUpToNever, EvidenceNegationsUnbuilt, EvidencePartsUnbuilt];
    let queries = [QueryUnbuilt, QueryBeforeEvidence, GivenKeepsNodes, SharesReduced];
    [&weights[..], &room, &cleared, &first, &later, &evidence, &built, &queries].concat()
}

fn of_listings() -> Vec<Mutant> {
    use Mutant::*;
    let output =
        [ListedUnfinished, ThirteenBeforeSeventeen, TwentyOneBeforeThirteen, OneByteShortTaken, OneByteMoreNeeded];
    let kept = [LengthAtTwentyOne, PartWritten, RestOfOutputCleared];
    let listed = [HighSideListedFirst, ParentsListedFirst, WholeStoreListed, ConstantsListed, RootCountedFromZero];
    [&output[..], &kept, &listed].concat()
}

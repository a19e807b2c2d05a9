//! Reads a program file and gives refusals 1 to 11 in the order of document 01, or all but 11, as request L4 has it.
//!
//! Every number is read from the bytes each time it is needed, so each test below stands for itself and can
//! change places with another; `Mutant::None` is the honest reader.

use crate::file::boundary::Counts;
use crate::file::mutants::{Limit, Mutant};
use crate::support::program::{Program, Rule};

#[derive(Clone, Copy, Debug, PartialEq)]
pub struct Refusal {
    pub number: u32,
    pub detail: u32,
}

type Tested = Result<(), Refusal>;
type FileTest<'a> = fn(&Reader<'a>) -> Tested;
/// Takes the rule's number and the place where it starts.
type RuleTest<'a> = fn(&Reader<'a>, usize, usize) -> Tested;

struct Reader<'a> {
    bytes: &'a [u8],
    mutant: Mutant,
    /// Whether the literals are held against the given layers.
    eleven: bool,
}

pub fn decode(bytes: &[u8]) -> Result<Program, Refusal> {
    let reader = Reader { bytes, mutant: Mutant::None, eleven: true };
    reader.test()?;
    Ok(reader.program())
}

/// With 11 left out: a literal that breaks the given layers is no fault and hides none behind it.
pub fn decode_without_eleven(bytes: &[u8], mutant: Mutant) -> Result<Program, Refusal> {
    let reader = Reader { bytes, mutant, eleven: mutant == Mutant::ElevenKept || mutant == Mutant::ElevenEndsTests };
    match reader.test() {
        Err(refusal) if refusal.number == 11 && mutant == Mutant::ElevenEndsTests => {}
        tested => tested?,
    }
    Ok(reader.program())
}

/// What reach_read should answer.
pub fn counts(bytes: &[u8], mutant: Mutant) -> Counts {
    let reader = Reader { bytes, mutant, eleven: true };
    match reader.test() {
        Ok(()) => reader.accepted(),
        Err(refusal) => reader.refused(refusal),
    }
}

impl<'a> Reader<'a> {
    fn is(&self, mutant: Mutant) -> bool {
        self.mutant == mutant
    }

    // Numbers of the file.

    fn byte(&self, at: usize) -> usize {
        if self.is(Mutant::ReadsZero(at)) {
            return 0;
        }
        match self.bytes.get(at) {
            Some(byte) => usize::from(*byte),
            None => {
                assert!(!self.is(Mutant::None), "the honest reader looks past the end of the file");
                0
            }
        }
    }

    fn two(&self, at: usize) -> usize {
        self.byte(at) + 256 * self.byte(at + 1)
    }

    fn four(&self, at: usize) -> usize {
        self.two(at) + 65_536 * self.two(at + 2)
    }

    fn kind(&self, entry: usize) -> usize {
        self.two(4 + 8 * entry)
    }

    fn items(&self, entry: usize) -> usize {
        self.two(6 + 8 * entry)
    }

    fn offset(&self, entry: usize) -> usize {
        self.four(8 + 8 * entry)
    }

    /// Where an entry's items lie by the table.
    fn place(&self, entry: usize) -> usize {
        [28, 28 + 4 * self.items(0), 28 + 4 * self.items(0) + self.items(1)][entry]
    }

    fn atoms(&self) -> usize {
        self.items(0) + self.items(1)
    }

    fn fact(&self, fact: usize) -> (usize, usize) {
        let at = self.place(0) + 4 * fact;
        if self.is(Mutant::WeightsBigEndian) {
            return (256 * self.byte(at) + self.byte(at + 1), 256 * self.byte(at + 2) + self.byte(at + 3));
        }
        (self.two(at), self.two(at + 2))
    }

    fn layer_byte(&self, derived: usize) -> usize {
        self.byte(self.place(1) + derived)
    }

    fn layer(&self, atom: usize) -> usize {
        if atom < self.items(0) {
            usize::from(self.is(Mutant::FactsInLayerOne))
        } else if atom < self.atoms() {
            self.layer_byte(atom - self.items(0))
        } else {
            assert!(!self.is(Mutant::None), "the honest reader asks for the layer of an unknown atom");
            0
        }
    }

    /// None where it passes the largest. After refusal 5 no factor is 0, so a product that passes it at any
    /// point passes it at the end.
    fn total(&self) -> Option<u64> {
        let largest = match self.mutant {
            // The largest total that a file can have is 15 below the largest allowed (see corpus/totals.rs).
            Mutant::Lower(Limit::Total) => u128::from(u64::MAX) - 16,
            Mutant::Higher(Limit::Total) => u128::from(u64::MAX) + 1,
            Mutant::TotalSigned => i64::MAX as u128,
            _ => u128::from(u64::MAX),
        };
        let mut total = 1;
        for fact in 0..self.items(0) {
            let (on, off) = self.fact(fact);
            total *= (on + off) as u128;
            if self.is(Mutant::TotalWraps) {
                total = u128::from(total as u64);
            }
            if total > largest {
                return None;
            }
        }
        Some(total as u64)
    }

    fn limit(&self, limit: Limit) -> usize {
        let value = match limit {
            Limit::Shortest => 28,
            Limit::Longest => 65_536,
            Limit::Facts => 32,
            Limit::Derived => 512,
            Limit::Rules => 2_048,
            Limit::Body => 16,
            Limit::Total => unreachable!("the total has its own, wider limit"),
        };
        if self.is(Mutant::Lower(limit)) {
            value - 1
        } else if self.is(Mutant::Higher(limit)) {
            value + 1
        } else {
            value
        }
    }

    fn refuse(&self, when: bool, number: u32, detail: usize) -> Tested {
        if !when {
            return Ok(());
        }
        let shift = u32::from(self.is(Mutant::Detail(number)));
        Err(Refusal { number, detail: detail as u32 + shift })
    }

    // Tests of the file, in order.

    fn test(&self) -> Tested {
        let mut tests: Vec<FileTest<'a>> = vec![
            Reader::test_length,
            Reader::test_contents,
            Reader::test_counts,
            Reader::test_offsets,
            Reader::test_facts,
            Reader::test_total,
            Reader::test_layers,
            Reader::test_rules,
        ];
        if let Mutant::FileOrder(first) = self.mutant {
            tests.swap(first, first + 1);
        }
        if self.is(Mutant::EntryByEntry) {
            tests.insert(1, Reader::test_entry_by_entry);
        }
        tests.iter().try_for_each(|test| test(self))
    }

    fn test_length(&self) -> Tested {
        let mut length = self.bytes.len();
        if self.is(Mutant::LengthInTwoBytes) {
            length %= 65_536;
        }
        self.refuse(length < self.limit(Limit::Shortest) || length > self.limit(Limit::Longest), 1, 0)
    }

    fn test_contents(&self) -> Tested {
        let numbers = self.two(0) != 1 || self.two(2) != 3;
        let kinds = (0..3).any(|entry| self.kind_wrong(entry));
        let counts = self.is(Mutant::CountsInContents) && (0..3).any(|entry| self.count_over(entry));
        self.refuse(numbers || kinds || counts, 2, 0)
    }

    fn kind_wrong(&self, entry: usize) -> bool {
        let kind = self.kind(entry);
        if self.is(Mutant::KindsInAnyOrder) {
            return !(1..=3).contains(&kind);
        }
        kind != entry + 1
    }

    fn test_counts(&self) -> Tested {
        self.refuse((0..3).any(|entry| self.count_over(entry)), 3, 0)
    }

    fn count_over(&self, entry: usize) -> bool {
        let largest = [Limit::Facts, Limit::Derived, Limit::Rules][entry];
        self.items(entry) > self.limit(largest)
    }

    fn test_offsets(&self) -> Tested {
        self.refuse((0..3).any(|entry| self.offset_wrong(entry)), 4, 0)
    }

    fn offset_wrong(&self, entry: usize) -> bool {
        let offset = self.offset(entry);
        let past_end = match self.mutant {
            Mutant::OffsetAtEndIsPast => offset >= self.bytes.len(),
            Mutant::OffsetPastEndTaken => false,
            _ => offset > self.bytes.len(),
        };
        past_end || offset != self.place(entry)
    }

    /// For one mutant only: document 01 finishes 2 for all entries before 3, and 3 before 4.
    fn test_entry_by_entry(&self) -> Tested {
        for entry in 0..3 {
            self.refuse(self.kind_wrong(entry), 2, 0)?;
            self.refuse(self.count_over(entry), 3, 0)?;
            self.refuse(self.offset_wrong(entry), 4, 0)?;
        }
        Ok(())
    }

    fn test_facts(&self) -> Tested {
        let refused = |fact: &usize| {
            let (on, off) = self.fact(*fact);
            on + off == 0 && !self.is(Mutant::WeightsUntested) || self.is(Mutant::EitherWeightZero) && on * off == 0
        };
        let mut facts = 0..self.items(0);
        let found = if self.is(Mutant::LastFactNamed) { facts.rfind(refused) } else { facts.find(refused) };
        self.refuse(found.is_some(), 5, found.unwrap_or(0))
    }

    fn test_total(&self) -> Tested {
        self.refuse(self.total().is_none() && !self.is(Mutant::WeightsUntested), 6, 0)
    }

    fn test_layers(&self) -> Tested {
        let refused = |derived: &usize| match self.layer_byte(*derived) {
            0 => !self.is(Mutant::GivenLayersUntested),
            255 => self.is(Mutant::LayerTopRefused),
            layer => self.is(Mutant::LayerGapRefused) && layer > 1 && !self.layer_used(layer - 1),
        };
        let mut derived = 0..self.items(1);
        let found = if self.is(Mutant::LastLayerNamed) { derived.rfind(refused) } else { derived.find(refused) };
        let first = if self.is(Mutant::LayerNamedWithoutFacts) { 0 } else { self.items(0) };
        self.refuse(found.is_some(), 7, first + found.unwrap_or(0))
    }

    fn layer_used(&self, layer: usize) -> bool {
        (0..self.items(1)).any(|derived| self.layer_byte(derived) == layer)
    }

    // Tests of the rules, in order.

    fn test_rules(&self) -> Tested {
        let mut tests: Vec<RuleTest<'a>> = vec![
            Reader::test_rule_header,
            Reader::test_body_length,
            Reader::test_body_present,
            Reader::test_head,
            Reader::test_literals,
        ];
        if let Mutant::RuleOrder(first) = self.mutant {
            tests.swap(first, first + 1);
        }
        if self.is(Mutant::ShapesBeforeAtoms) {
            self.walk_rules(&tests[..3])?;
        }
        self.walk_rules(&tests)
    }

    fn walk_rules(&self, tests: &[RuleTest<'a>]) -> Tested {
        let mut at = self.place(2);
        for rule in 0..self.items(2) {
            tests.iter().try_for_each(|test| test(self, rule, at))?;
            at += 4 + 2 * self.body_length(at);
        }
        self.test_leftover(at)
    }

    fn body_length(&self, at: usize) -> usize {
        self.two(at + 2)
    }

    fn test_rule_header(&self, rule: usize, at: usize) -> Tested {
        let needed = if self.is(Mutant::HeaderInTwoBytes) { 2 } else { 4 };
        self.refuse(at + needed > self.bytes.len(), 8, rule)
    }

    fn test_body_length(&self, rule: usize, at: usize) -> Tested {
        let length = self.body_length(at);
        let empty = self.is(Mutant::EmptyBodyRefused) && length == 0;
        self.refuse(length > self.limit(Limit::Body) || empty, 9, rule)
    }

    fn test_body_present(&self, rule: usize, at: usize) -> Tested {
        let spared = usize::from(self.is(Mutant::BodyOneByteShort));
        self.refuse(at + 4 + 2 * self.body_length(at) > self.bytes.len() + spared, 8, rule)
    }

    fn test_head(&self, rule: usize, at: usize) -> Tested {
        let head = self.two(at);
        let first = match self.mutant {
            Mutant::HeadLastFactTaken => self.items(0).saturating_sub(1),
            Mutant::HeadFirstDerivedRefused => self.items(0) + 1,
            _ => self.items(0),
        };
        let end = self.atoms() + usize::from(self.is(Mutant::HeadAtEndTaken));
        self.refuse(head < first || head >= end, 10, rule)
    }

    fn test_literals(&self, rule: usize, at: usize) -> Tested {
        let head = self.two(at);
        let mut literals: Vec<usize> = (0..self.body_length(at)).map(|i| self.two(at + 4 + 2 * i)).collect();
        match self.mutant {
            Mutant::LastLiteralFirst => literals.reverse(),
            Mutant::TensBeforeElevens => literals.iter().try_for_each(|one| self.test_known(rule, *one))?,
            Mutant::ElevensBeforeTens => literals.iter().try_for_each(|one| self.test_layer(rule, head, *one))?,
            _ => self.test_repeats(rule, at, &literals)?,
        }
        for literal in literals {
            self.test_known(rule, literal)?;
            if self.eleven {
                self.test_layer(rule, head, literal)?;
            }
            if self.is(Mutant::ElevenEndsBody) && self.test_layer(rule, head, literal).is_err() {
                break;
            }
        }
        Ok(())
    }

    fn test_known(&self, rule: usize, literal: usize) -> Tested {
        let end = match self.mutant {
            Mutant::LiteralAtEndTaken => self.atoms() + 1,
            Mutant::LiteralLastAtomRefused => self.atoms().saturating_sub(1),
            _ => self.atoms(),
        };
        let number = if self.is(Mutant::UnknownIsEleven) { 11 } else { 10 };
        self.refuse(literal / 2 >= end, number, rule)
    }

    fn test_layer(&self, rule: usize, head: usize, literal: usize) -> Tested {
        let (mut over, mut under) = (self.layer(literal / 2), self.layer(head));
        if self.is(Mutant::LayersSigned) {
            // Adding 128 modulo 256 orders bytes as signed numbers are ordered.
            (over, under) = ((over + 128) % 256, (under + 128) % 256);
        }
        let negated = (literal % 2 == 1) != self.is(Mutant::SignReversed);
        let strictly = match self.mutant {
            Mutant::EqualNegatedTaken => false,
            Mutant::EqualPositiveRefused => true,
            _ => negated,
        };
        self.refuse(over > under || strictly && over == under, 11, rule)
    }

    /// For three mutants only: document 01 calls all three legal.
    fn test_repeats(&self, rule: usize, at: usize, literals: &[usize]) -> Tested {
        let refused = match self.mutant {
            Mutant::RepeatedRuleRefused => {
                let size = 4 + 2 * literals.len();
                self.bytes.get(at..at + size) == self.bytes.get(at + size..at + 2 * size)
            }
            Mutant::RepeatedLiteralRefused => {
                literals.iter().any(|one| literals.iter().filter(|other| *other == one).count() > 1)
            }
            Mutant::OwnNegationRefused => literals.iter().any(|one| literals.contains(&(one ^ 1))),
            _ => false,
        };
        self.refuse(refused, 11, rule)
    }

    fn test_leftover(&self, at: usize) -> Tested {
        let rules = self.items(2);
        let taken = match self.mutant {
            Mutant::LeftoverTaken => true,
            Mutant::LeftoverWithoutRulesTaken => rules == 0,
            _ => false,
        };
        let named = if self.is(Mutant::LeftoverNamesLastRule) { rules.saturating_sub(1) } else { rules };
        self.refuse(at < self.bytes.len() && !taken, 8, named)
    }

    // Answers.

    fn accepted(&self) -> Counts {
        let none_is_zero = self.is(Mutant::TotalOfNoFactsZero) && self.items(0) == 0;
        let derived = if self.is(Mutant::DerivedCountsFacts) { self.atoms() } else { self.items(1) };
        Counts {
            refusal: 0,
            detail: 0,
            facts: self.items(0) as u32,
            derived: derived as u32,
            total: if none_is_zero { 0 } else { self.total().expect("refusal 6 was tested") },
        }
    }

    fn refused(&self, refusal: Refusal) -> Counts {
        let Refusal { number, detail } = refusal;
        let mut counts = Counts { refusal: number, detail, facts: 0, derived: 0, total: 0 };
        if self.is(Mutant::CountsWithRefusal) && number > 4 {
            counts.facts = self.items(0) as u32;
            counts.derived = self.items(1) as u32;
        }
        if self.is(Mutant::TotalWithRefusal) && number > 6 {
            counts.total = self.total().expect("refusal 6 was tested");
        }
        counts
    }

    /// Only after all tests.
    fn program(&self) -> Program {
        let mut rules = Vec::new();
        let mut at = self.place(2);
        for _ in 0..self.items(2) {
            let length = self.body_length(at);
            let body = (0..length).map(|literal| self.two(at + 4 + 2 * literal) as u16).collect();
            rules.push(Rule { head: self.two(at) as u16, body });
            at += 4 + 2 * length;
        }
        let weights = |fact| {
            let (on, off) = self.fact(fact);
            (on as u16, off as u16)
        };
        Program {
            facts: (0..self.items(0)).map(weights).collect(),
            layers: (0..self.items(1)).map(|derived| self.layer_byte(derived) as u8).collect(),
            rules,
        }
    }
}

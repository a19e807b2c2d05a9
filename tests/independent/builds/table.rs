//! Functions of up to 6 facts, written out for all 64 choices.

use super::function::Function;

/// Facts that a table reaches.
pub const REACH: u16 = 6;

/// Bit c says whether the function holds under choice c, in which fact i is on where bit i of c is 1.
#[derive(Clone, Copy, Debug, PartialEq, Eq, PartialOrd, Ord)]
pub struct Table(pub u64);

impl Table {
    pub fn of(holds: impl Fn(u64) -> bool) -> Table {
        Table((0..1 << REACH).map(|choice| u64::from(holds(choice)) << choice).sum())
    }

    pub fn holds(self, choice: u64) -> bool {
        self.0 >> choice & 1 == 1
    }
}

impl Function for Table {
    fn never() -> Table {
        Table(0)
    }

    fn fact(fact: u16) -> Table {
        assert!(fact < REACH, "a table does not reach fact {fact}");
        Table::of(|choice| choice >> fact & 1 == 1)
    }

    fn not(&self) -> Table {
        Table(!self.0)
    }

    fn and(&self, other: &Table) -> Table {
        Table(self.0 & other.0)
    }

    fn or(&self, other: &Table) -> Table {
        Table(self.0 | other.0)
    }

    fn lowest(&self) -> Option<u16> {
        (0..REACH).find(|fact| self.fixed(*fact, false) != self.fixed(*fact, true))
    }

    fn fixed(&self, fact: u16, on: bool) -> Table {
        let bit = 1 << fact;
        Table::of(|choice| self.holds(if on { choice | bit } else { choice & !bit }))
    }
}

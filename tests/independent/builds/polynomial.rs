//! Functions as polynomials over 0 and 1 with 1 + 1 = 0. A fact is a variable, a conjunction is a product, a
//! negation adds 1. Each function has exactly one such polynomial (Zhegalkin), so equal functions are equal values.
//! Parities have few products, also over 32 facts, where a truth table would have 2^32 rows.

use super::function::Function;
use std::collections::BTreeSet;

/// The products that are added up. Bit i of a product says whether fact i is in it; the empty product is 1.
#[derive(Clone, PartialEq, Eq, PartialOrd, Ord)]
pub struct Polynomial(BTreeSet<u64>);

impl Polynomial {
    /// A product that comes twice is gone again.
    fn sum(products: impl IntoIterator<Item = u64>) -> Polynomial {
        let mut left = BTreeSet::new();
        for product in products {
            if !left.remove(&product) {
                left.insert(product);
            }
        }
        Polynomial(left)
    }

    fn products(&self) -> impl Iterator<Item = u64> + '_ {
        self.0.iter().copied()
    }
}

impl Function for Polynomial {
    fn never() -> Polynomial {
        Polynomial::sum([])
    }

    fn fact(fact: u16) -> Polynomial {
        Polynomial::sum([1 << fact])
    }

    fn not(&self) -> Polynomial {
        Polynomial::sum(self.products().chain([0]))
    }

    /// A fact times itself is itself, so the product of two products has the facts of both.
    fn and(&self, other: &Polynomial) -> Polynomial {
        Polynomial::sum(self.products().flat_map(|left| other.products().map(move |right| left | right)))
    }

    /// The sum, and the product once more for the choices under which both hold.
    fn or(&self, other: &Polynomial) -> Polynomial {
        let both = self.and(other);
        Polynomial::sum(self.products().chain(other.products()).chain(both.products()))
    }

    /// It depends on just the facts that it names, since no other polynomial is equal to it.
    fn lowest(&self) -> Option<u16> {
        let facts = self.products().fold(0, |facts, product| facts | product);
        (facts != 0).then(|| facts.trailing_zeros() as u16)
    }

    fn fixed(&self, fact: u16, on: bool) -> Polynomial {
        let bit = 1 << fact;
        if on {
            Polynomial::sum(self.products().map(|product| product & !bit))
        } else {
            Polynomial::sum(self.products().filter(|product| product & bit == 0))
        }
    }
}

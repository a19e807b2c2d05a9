//! Totals about the largest, 18,446,744,073,709,551,615.

use crate::support::encode::encode;
use crate::support::program::Program;

const PAST_LARGEST: u128 = 1 << 64;

/// A factor of a total is on + off.
const LARGEST_FACTOR: u128 = 2 * 65_535;

type Facts = Vec<(u16, u16)>;

pub fn totals() -> Vec<Vec<u8>> {
    let primes = primes();
    let below: Vec<Facts> = (0..PAST_LARGEST).rev().filter_map(|total| facts_for(total, &primes)).take(5).collect();
    let above: Vec<Facts> = (PAST_LARGEST..).filter_map(|total| facts_for(total, &primes)).take(5).collect();
    let lists = [below, above, powers(), equal_facts()].concat();
    lists.into_iter().flat_map(three_ways).collect()
}

/// The largest total that a file can have.
pub fn largest() -> u128 {
    let primes = primes();
    (0..PAST_LARGEST).rev().find(|total| facts_for(*total, &primes).is_some()).expect("1 can be had")
}

/// All primes that a factor can have.
fn primes() -> Vec<u128> {
    let mut primes: Vec<u128> = Vec::new();
    for number in 2..=LARGEST_FACTOR {
        let mut smaller = primes.iter().take_while(|prime| **prime * **prime <= number);
        if smaller.all(|prime| number % prime != 0) {
            primes.push(number);
        }
    }
    primes
}

/// Facts whose total is exactly this; none where the total has a prime too large for a fact.
fn facts_for(total: u128, primes: &[u128]) -> Option<Facts> {
    let mut rest = total;
    let mut factors = vec![1];
    for prime in primes {
        while rest % prime == 0 {
            rest /= prime;
            // Small primes share a fact, or 2^64 would need more than 32 facts.
            match factors.iter_mut().find(|factor| **factor * prime <= LARGEST_FACTOR) {
                Some(factor) => *factor *= prime,
                None => factors.push(*prime),
            }
        }
    }
    let halves = |factor: u128| ((factor / 2) as u16, (factor - factor / 2) as u16);
    (rest == 1).then(|| factors.into_iter().map(halves).collect())
}

/// Powers of 2 from 2^60 to 2^160: the product wraps to 0 in 64 bits from 2^64 on, in 128 from 2^128 on.
fn powers() -> Vec<Facts> {
    (60..=160).map(power).collect()
}

fn power(exponent: usize) -> Facts {
    let mut facts = vec![(32_768, 32_768); exponent / 16];
    facts.push((0, 1 << (exponent % 16)));
    facts
}

fn equal_facts() -> Vec<Facts> {
    let mut lists = Vec::new();
    for weights in [(65_535, 65_535), (65_535, 0), (0, 65_535), (1, 1), (1, 2), (2, 2), (2, 1), (1, 0)] {
        lists.extend((0..=32).map(|count| vec![weights; count]));
    }
    lists
}

/// As they are, and with facts that change no product behind and before them: the product may pass the
/// largest early or late.
fn three_ways(facts: Facts) -> [Vec<u8>; 3] {
    let mut behind = facts.clone();
    behind.resize(32, (1, 0));
    let before = behind.iter().rev().copied().collect();
    [facts, behind, before].map(|facts| encode(&Program { facts, layers: vec![], rules: vec![] }))
}

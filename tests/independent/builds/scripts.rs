//! All scripts, in the order of the input. The same on every machine.

use super::chance::{self, bad_steps, needed, reordered};
use super::mutant::Mutant;
use super::play::{play, RESULTS};
use super::script::{Script, Step, Writer, FACT, LARGEST, NOT};
use crate::support::random::Random;

pub fn scripts() -> Vec<Script> {
    let groups = [
        every_size(&file_s()),
        every_size(&both_sides_new()),
        edges(),
        bad(),
        every_size(&laws()),
        functions_of_few_facts(),
        counting(),
        chance::scripts(70),
        long(),
        vec![filled()],
        vec![two_parities(6), two_parities(32), sum_of_parities(32)],
    ];
    groups.concat()
}

fn script(size: usize, steps: &[Step]) -> Script {
    Script { size, steps: steps.to_vec() }
}

/// From no node at all to one more than all take, so that each instruction that adds nodes is full in its turn.
fn every_size(steps: &[Step]) -> Vec<Script> {
    (0..=needed(steps) + 1).map(|size| script(size, steps)).collect()
}

/// The builds that file S comes to: both facts, atom 3, its negation, atom 5.
pub fn file_s() -> Vec<Step> {
    let mut writer = Writer::default();
    let (first, second) = (writer.fact(0), writer.fact(1));
    let third = writer.and(first, second);
    let not_third = writer.not(third);
    writer.and(first, not_third);
    writer.steps
}

/// Fact 1 where fact 0 is on, else fact 2; the negation finds neither of its sides there.
pub fn both_sides_new() -> Vec<Step> {
    let mut writer = Writer::default();
    let [zero, one, two] = [0, 1, 2].map(|fact| writer.fact(fact));
    let high = writer.and(zero, one);
    let not_zero = writer.not(zero);
    let low = writer.and(not_zero, two);
    let chosen = writer.or(low, high);
    writer.not(chosen);
    writer.steps
}

/// No instruction; all facts and one past them; numbers that an instruction does not use.
fn edges() -> Vec<Script> {
    let mut scripts = [0, 1, LARGEST].map(|size| script(size, &[])).to_vec();
    let mut facts: Vec<Step> = (0..32).rev().map(|fact| Step::new(FACT, fact, 0)).collect();
    scripts.extend([31, 32].map(|size| script(size, &facts)));
    facts.push(Step::new(FACT, 32, 0));
    scripts.push(script(LARGEST, &facts));
    let unused = [Step::new(FACT, 1, 65_535), Step::new(NOT, 0, 65_535), Step::new(NOT, 1, 2)];
    scripts.push(script(LARGEST, &unused));
    scripts
}

/// Every bad instruction at every place of a small script, in a store that has no room for what follows: bad must
/// not turn into full.
fn bad() -> Vec<Script> {
    let good = file_s();
    let mut scripts = Vec::new();
    for at in 0..=good.len() {
        for bad in bad_steps(at as u16) {
            let steps = [&good[..at], &[bad], &good[at..]].concat();
            scripts.push(script(needed(&good[..at]), &steps));
        }
    }
    scripts
}

/// Builds that add nothing: done again, combined with themselves and with constants, negated twice, and the two
/// sides of the laws of absorption, distribution and negation.
fn laws() -> Vec<Step> {
    let mut writer = Writer::default();
    let [a, b, c] = [3, 0, 5].map(|fact| writer.fact(fact));
    writer.fact(3);
    let never = writer.never(0);
    let always = writer.not(never);
    for of in [a, never, always] {
        let once = writer.not(of);
        let twice = writer.not(once);
        writer.not(twice);
        for with in [of, once, never, always] {
            writer.and(of, with);
            writer.or(with, of);
        }
    }
    let (both, either) = (writer.and(a, b), writer.or(a, b));
    writer.or(a, both);
    writer.and(either, a);
    let (not_a, not_b) = (writer.not(a), writer.not(b));
    writer.not(both);
    writer.or(not_b, not_a);
    let (first, second) = (writer.and(a, c), writer.and(c, b));
    writer.or(first, second);
    writer.and(c, either);
    writer.steps
}

/// All functions of one, two and three facts; those of two with every size of the store, and in other orders.
fn functions_of_few_facts() -> Vec<Script> {
    let mut scripts = every_size(&every_function(&[0, 1]));
    let mut random = Random::new(4);
    for facts in [[0, 1], [1, 0], [2, 5]] {
        scripts.push(script(LARGEST, &reordered(&every_function(&facts), &mut random)));
    }
    scripts.push(script(LARGEST, &every_function(&[4])));
    scripts.push(script(254, &every_function(&[0, 1, 2])));
    scripts.push(script(253, &reordered(&every_function(&[5, 1, 3]), &mut random)));
    scripts
}

/// Function number t holds in the rows of its bits; each is the one without its lowest row, or that row.
pub fn every_function(facts: &[u16]) -> Vec<Step> {
    let mut writer = Writer::default();
    let never = writer.never(facts[0]);
    let rows = rows(&mut writer, facts);
    let mut functions = vec![never];
    for number in 1..1usize << rows.len() {
        let rest = functions[number & (number - 1)];
        functions.push(writer.or(rest, rows[number.trailing_zeros() as usize]));
    }
    writer.steps
}

/// For each choice of these facts the function that holds just there.
fn rows(writer: &mut Writer, facts: &[u16]) -> Vec<u16> {
    let mut rows = Vec::new();
    for fact in facts {
        let on = writer.fact(*fact);
        let off = writer.not(on);
        let longer = |row: &u16| [off, on].map(|literal| writer.and(*row, literal));
        rows = if rows.is_empty() { vec![off, on] } else { rows.iter().flat_map(longer).collect() };
    }
    rows
}

/// Majorities and other counts of facts that are on, and parities, with the facts rising, falling and mixed.
fn counting() -> Vec<Script> {
    let mut scripts = every_size(&at_least(2, &[0, 1, 2]));
    for facts in [[0, 1, 2, 3, 4], [4, 3, 2, 1, 0], [2, 5, 0, 3, 1]] {
        scripts.push(script(LARGEST, &at_least(3, &facts)));
    }
    scripts.push(script(LARGEST, &at_least(4, &[5, 1, 4, 0, 3, 2])));
    for facts in [[0, 1, 2, 3, 4, 5], [5, 4, 3, 2, 1, 0], [3, 0, 5, 2, 4, 1]] {
        let mut writer = Writer::default();
        let never = writer.never(facts[0]);
        parity(&mut writer, never, &facts);
        let all = needed(&writer.steps);
        scripts.extend((0..=all).rev().step_by(15).map(|size| script(size, &writer.steps)));
    }
    scripts
}

/// Holds where so many of the facts are on. Goes fact by fact: at least k are on where k were before, or where
/// k - 1 were and this one is on.
fn at_least(count: usize, facts: &[u16]) -> Vec<Step> {
    let mut writer = Writer::default();
    let never = writer.never(facts[0]);
    let mut on_so_far = vec![never; count + 1];
    on_so_far[0] = writer.not(never);
    for fact in facts {
        let on = writer.fact(*fact);
        for k in (1..=count).rev() {
            let with = writer.and(on_so_far[k - 1], on);
            on_so_far[k] = writer.or(on_so_far[k], with);
        }
    }
    writer.steps
}

/// Holds where an odd number of the facts is on.
fn parity(writer: &mut Writer, never: u16, facts: &[u16]) -> u16 {
    let mut parity = never;
    for fact in facts {
        let on = writer.fact(*fact);
        parity = writer.differ(parity, on);
    }
    parity
}

/// The parity of the facts at even places, and of those at odd places.
fn parities(writer: &mut Writer, facts: u16) -> (u16, u16) {
    let never = writer.never(0);
    let places = |first| (first..facts).step_by(2).collect::<Vec<u16>>();
    (parity(writer, never, &places(0)), parity(writer, never, &places(1)))
}

/// Both parities together. Neither is known before its last fact, so a walk that does not remember the pairs of
/// nodes it has seen takes 2^facts steps.
pub fn two_parities(facts: u16) -> Script {
    let mut writer = Writer::default();
    let (even, odd) = parities(&mut writer, facts);
    writer.and(even, odd);
    script(LARGEST, &writer.steps)
}

/// The same for disjunction and negation.
pub fn sum_of_parities(facts: u16) -> Script {
    let mut writer = Writer::default();
    let (even, odd) = parities(&mut writer, facts);
    let sum = writer.or(even, odd);
    writer.not(sum);
    script(LARGEST, &writer.steps)
}

/// About the 1,024th result: it is the last; it would be but for a bad instruction; 76 more instructions follow it,
/// the first of which would be full and the others bad.
fn long() -> Vec<Script> {
    let mut random = Random::new(5);
    let mut steps = |facts| chance::rich_steps(facts, RESULTS, &mut random);
    let bad = Step::new(NOT, RESULTS as u16 + 1, 0);
    let mut one_less = steps(2);
    one_less[RESULTS - 1] = bad;
    let last = steps(3);
    let too_many = [&last[..], &[Step::new(FACT, 3, 0)], &[bad; 75]].concat();
    vec![script(LARGEST, &steps(4)), script(LARGEST, &one_less), script(needed(&last), &too_many)]
}

/// A store of the largest size, full to its last node: builds by chance, then builds of one node each, then some
/// that add nothing, then one node too many.
fn filled() -> Script {
    let by_chance = script(LARGEST - 16, &chance::rich_steps(6, RESULTS, &mut Random::new(6)));
    let played = play(&by_chance, Mutant::None);
    let mut writer = Writer { steps: by_chance.steps[..played.results.len()].to_vec() };
    let mut facts = 6..32;
    for _ in played.nodes.len()..LARGEST {
        writer.fact(facts.next().expect("enough facts to fill the store"));
    }
    let last = writer.steps.len() as u16 - 1;
    writer.and(last, last);
    writer.or(last, last);
    writer.not(last);
    script(LARGEST, &writer.steps)
}

//! Instructions by chance, the same ones in other orders, and bad ones of every kind.

use super::mutant::Mutant;
use super::play::play;
use super::script::{Script, Step, Writer, AND, FACT, LARGEST, NOT, OR};
use crate::support::random::Random;

/// Valid instructions over the first `facts` facts; none without facts, since nothing can be built first.
fn steps(facts: u16, count: usize, random: &mut Random) -> Vec<Step> {
    let mut steps = Vec::new();
    let count = if facts == 0 { 0 } else { count };
    for results in 0..count {
        let op = if results == 0 { FACT } else { random.pick(&[FACT, AND, AND, OR, OR, NOT]) };
        let limit = if op == FACT { usize::from(facts) } else { results };
        let y = if matches!(op, AND | OR) { random.below(limit) } else { 0 };
        steps.push(Step::new(op, random.below(limit) as u16, y as u16));
    }
    steps
}

/// Builds whose functions stay apart. Conjunctions and disjunctions by chance soon come to constants; here each
/// turn changes the last function in some choices, so that it never gets poorer.
pub fn rich_steps(facts: u16, count: usize, random: &mut Random) -> Vec<Step> {
    let mut writer = Writer::default();
    let facts: Vec<u16> = (0..facts).map(|fact| writer.fact(fact)).collect();
    let mut functions = facts.clone();
    let mut last = facts[0];
    while writer.steps.len() < count {
        let (fact, other) = (random.pick(&facts), random.pick(&functions));
        let changed = if random.below(2) == 0 { writer.and(other, fact) } else { writer.or(fact, other) };
        last = writer.differ(last, changed);
        functions.push(last);
    }
    writer.steps.truncate(count);
    writer.steps
}

/// The same builds in another order: each turn takes one of those whose operands are built already.
pub fn reordered(steps: &[Step], random: &mut Random) -> Vec<Step> {
    let mut places: Vec<Option<u16>> = vec![None; steps.len()];
    let mut order = Vec::new();
    for place in 0..steps.len() as u16 {
        let ready = |step: &Step| step.operands().iter().all(|operand| places[*operand].is_some());
        let left = (0..steps.len()).filter(|number| places[*number].is_none() && ready(&steps[*number]));
        let number = random.pick(&left.collect::<Vec<usize>>());
        order.push(moved(&steps[number], &places));
        places[number] = Some(place);
    }
    order
}

/// The instruction with the new places of its operands; a fact stays.
fn moved(step: &Step, places: &[Option<u16>]) -> Step {
    let new: Vec<u16> = step.operands().iter().filter_map(|operand| places[*operand]).collect();
    Step::new(step.op, *new.first().unwrap_or(&step.x), *new.get(1).unwrap_or(&step.y))
}

/// Every kind of bad instruction where there are this many results, the numbers that are good again when cut to
/// one byte among them.
pub fn bad_steps(results: u16) -> Vec<Step> {
    let mut bad: Vec<Step> = [4, 5, 128, 255].map(|op| Step::new(op, 0, 0)).to_vec();
    bad.extend([32, 33, 255, 256, 65_535].map(|fact| Step::new(FACT, fact, 0)));
    for past in [results, results.max(256), 65_535] {
        bad.push(Step::new(NOT, past, 0));
        for op in [AND, OR] {
            bad.extend([(past, 0), (0, past), (past, past)].map(|(x, y)| Step::new(op, x, y)));
        }
    }
    bad
}

/// Sets of builds over 0 to 6 facts, each in several orders and with stores of several sizes.
pub fn scripts(sets: u64) -> Vec<Script> {
    let mut scripts = Vec::new();
    for number in 0..sets {
        let mut random = Random::new(number);
        let (facts, count) = (number as u16 % 7, 1 + random.below(40));
        let rich = facts > 0 && random.below(2) == 0;
        let steps = if rich { rich_steps } else { steps }(facts, count, &mut random);
        for _ in 0..3 {
            let mut steps = reordered(&steps, &mut random);
            let size = size(needed(&steps), &mut random);
            if random.below(6) == 0 {
                spoil(&mut steps, &mut random);
            }
            scripts.push(Script { size, steps });
        }
    }
    scripts
}

/// Nodes that the whole of these builds takes.
pub fn needed(steps: &[Step]) -> usize {
    play(&Script { size: LARGEST, steps: steps.to_vec() }, Mutant::None).nodes.len()
}

/// The sizes about the one that just suffices come often, because faults sit there.
fn size(needed: usize, random: &mut Random) -> usize {
    match random.below(8) {
        0 => LARGEST,
        1 => needed + 1,
        2 => needed,
        3 => needed.saturating_sub(1),
        _ => random.below(needed + 1),
    }
}

/// Puts a bad instruction in.
fn spoil(steps: &mut Vec<Step>, random: &mut Random) {
    let at = random.below(steps.len() + 1);
    let bad = random.pick(&bad_steps(at as u16));
    steps.insert(at, bad);
}

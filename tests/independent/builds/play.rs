//! Plays scripts and writes what comes out.

use super::function::Function;
use super::mutant::Mutant;
use super::numbering::{Node, Numbering};
use super::polynomial::Polynomial;
use super::script::{Script, Step, AND, FACT, NOT, OR};
use super::table::{self, Table};
use std::fmt;

/// Facts that a script may build.
pub const FACTS: u16 = 32;

/// Results with which a script ends even where instructions are left.
pub const RESULTS: usize = 1_024;

#[derive(Clone, Copy, Debug, PartialEq)]
pub enum Ending {
    Done,
    Bad,
    Full,
}

#[derive(Debug, PartialEq)]
pub struct Played {
    pub ending: Ending,
    pub results: Vec<usize>,
    pub nodes: Vec<Node>,
}

impl fmt::Display for Played {
    fn fmt(&self, out: &mut fmt::Formatter) -> fmt::Result {
        let ending = match self.ending {
            Ending::Done => "done",
            Ending::Bad => "bad",
            Ending::Full => "full",
        };
        writeln!(out, "{ending} {} {}", self.results.len(), self.nodes.len())?;
        writeln!(out, "{}\n{}", spaced(&self.results), spaced(&self.nodes))
    }
}

fn spaced<T: fmt::Display>(items: &[T]) -> String {
    let texts: Vec<String> = items.iter().map(T::to_string).collect();
    texts.join(" ")
}

/// The expected text for all scripts.
pub fn text(scripts: &[Script], mutant: Mutant) -> String {
    scripts.iter().map(|script| play(script, mutant).to_string()).collect()
}

/// Over tables, or over polynomials where tables do not reach.
pub fn play(script: &Script, mutant: Mutant) -> Played {
    if script.below(table::REACH) {
        play_over::<Table>(script, mutant)
    } else {
        play_over::<Polynomial>(script, mutant)
    }
}

pub fn play_over<F: Function>(script: &Script, mutant: Mutant) -> Played {
    let mut functions: Vec<F> = Vec::new();
    let mut numbering = Numbering::new(mutant);
    let mut results = Vec::new();
    let mut ending = Ending::Done;
    // An instruction gives a result or ends the script, so results are counted by counting instructions.
    for step in script.steps.iter().take(most_results(mutant)) {
        let Some(function) = meaning(step, &functions, mutant) else {
            ending = Ending::Bad;
            break;
        };
        let before = numbering.nodes.len();
        for part in parts(step, &functions, mutant) {
            numbering.build(&part);
        }
        let number = numbering.build(&function);
        if numbering.nodes.len() > room(script.size, mutant) {
            ending = Ending::Full;
            // Nothing is built after this, so the nodes alone are taken back.
            numbering.nodes.truncate(if mutant == Mutant::FullKeepsNodes { script.size } else { before });
            break;
        }
        results.push(number);
        functions.push(function);
    }
    Played { ending, results, nodes: numbering.nodes }
}

fn most_results(mutant: Mutant) -> usize {
    match mutant {
        Mutant::OneResultLess => RESULTS - 1,
        Mutant::OneResultMore => RESULTS + 1,
        _ => RESULTS,
    }
}

fn room(size: usize, mutant: Mutant) -> usize {
    match mutant {
        Mutant::FullAtLast => size.saturating_sub(1),
        Mutant::FullOneLate => size + 1,
        _ => size,
    }
}

/// What an instruction builds; none where it is bad.
fn meaning<F: Function>(step: &Step, functions: &[F], mutant: Mutant) -> Option<F> {
    let operand = |number| operand(number, functions, mutant);
    match step.op {
        FACT if step.x < facts(mutant) => Some(F::fact(step.x)),
        AND => Some(operand(step.x)?.and(&operand(step.y)?)),
        OR => Some(operand(step.x)?.or(&operand(step.y)?)),
        NOT => Some(operand(step.x)?.not()),
        _ => None,
    }
}

/// What is built on the way to a result: nothing in the honest reading.
fn parts<F: Function>(step: &Step, functions: &[F], mutant: Mutant) -> Vec<F> {
    if mutant != Mutant::SumByNegations || step.op != OR {
        return Vec::new();
    }
    let (left, right) = (functions[usize::from(step.x)].not(), functions[usize::from(step.y)].not());
    let neither = left.and(&right);
    vec![left, right, neither]
}

fn facts(mutant: Mutant) -> u16 {
    match mutant {
        Mutant::LastFactBad => FACTS - 1,
        Mutant::FactAtEndTaken => FACTS + 1,
        _ => FACTS,
    }
}

fn operand<F: Function>(number: u16, functions: &[F], mutant: Mutant) -> Option<F> {
    let number = usize::from(number);
    match mutant {
        Mutant::OperandAtEndTaken if number == functions.len() => Some(F::never()),
        Mutant::OperandsInOneByte => functions.get(number % 256).cloned(),
        _ => functions.get(number).cloned(),
    }
}

//! What the program `layers` prints for a file: a line for each derived atom and its layer; or `refused`, number and
//! detail, and at 24 the chain behind it, one rule number to a line.

use super::by_hand::{self, Answer};
use super::chain;
use super::judge::{expected, Expected, ROOM};
use super::mutant::Mutant;
use super::search;
use super::web::Web;
use crate::file::Refusal;
use crate::support::checked::Checked;
use crate::support::encode::encode;
use crate::support::program::Program;

/// An error says why this is no right text for the file.
pub fn judge(file: &[u8], text: &str) -> Result<(), String> {
    match expected(file, ROOM) {
        Expected::Refused(Refusal { number, detail }) => same(text, &refused(number, detail)),
        Expected::Layers(layers, facts) => {
            let lines = layers.iter().enumerate().map(|(at, layer)| format!("{} {layer}\n", facts + at));
            same(text, &lines.collect::<String>())
        }
        Expected::Chain(program, atom) => {
            let first = refused(24, atom);
            let rest = text.strip_prefix(&first).ok_or_else(|| format!("expected {first:?} first"))?;
            chain::test(&program, atom, &numbers(rest)?)
        }
    }
}

fn refused(number: u32, detail: u32) -> String {
    format!("refused {number} {detail}\n")
}

fn same(text: &str, wanted: &str) -> Result<(), String> {
    if text == wanted {
        Ok(())
    } else {
        Err(format!("expected {wanted:?} got {text:?}"))
    }
}

/// One number to a line, without signs, blanks or zeros before it, and a line end after each.
fn numbers(lines: &str) -> Result<Vec<usize>, String> {
    let mut numbers = Vec::new();
    for line in lines.split_inclusive('\n') {
        let number = line.strip_suffix('\n').and_then(|digits| digits.parse::<usize>().ok());
        let number = number.filter(|number| line == format!("{number}\n"));
        numbers.push(number.ok_or_else(|| format!("no line of a chain: {line:?}"))?);
    }
    Ok(numbers)
}

/// For a file and a text by their names.
pub fn judge_files(file: &str, text: &str) -> Result<(), String> {
    let read = |name: &str| std::fs::read(name).map_err(|fault| format!("{name}: {fault}"));
    let text = String::from_utf8(read(text)?).map_err(|fault| fault.to_string())?;
    judge(&read(file)?, &text)
}

/// The judge itself, on right texts and on spoilt ones.
pub fn check() -> Checked {
    let mut texts = 0;
    for (program, answer) in by_hand::cases() {
        let (file, right) = (encode(&program), right(&program, &answer));
        judge(&file, &right)?;
        for spoilt in spoilt(&right).into_iter().filter(|spoilt| *spoilt != right) {
            if judge(&file, &spoilt).is_ok() {
                return Err(format!("taken: {spoilt:?}, where {right:?} is right"));
            }
            texts += 1;
        }
    }
    Ok(texts)
}

fn right(program: &Program, answer: &Answer) -> String {
    match answer {
        Ok(layers) => (program.facts.len()..).zip(layers).map(|(atom, layer)| format!("{atom} {layer}\n")).collect(),
        Err((24, atom)) => {
            let chain = search::chain(&Web::of(program, Mutant::None), *atom as usize, true);
            refused(24, *atom) + &chain.iter().map(|rule| format!("{rule}\n")).collect::<String>()
        }
        Err((number, detail)) => refused(*number, *detail),
    }
}

fn spoilt(right: &str) -> Vec<String> {
    let shorter = right.strip_suffix('\n').unwrap_or(" ").to_string();
    let lines: Vec<&str> = right.split_inclusive('\n').collect();
    let without_last = lines[..lines.len().saturating_sub(1)].concat();
    let ends = [format!("{right}\n"), format!(" {right}"), format!("{right}9999\n"), right.replace('\n', "\r\n")];
    let inside = [right.replace(' ', "  "), right.replace("24", "37"), right.replace("37 ", "24 "), String::new()];
    [vec![shorter, without_last], ends.to_vec(), inside.to_vec()].concat()
}

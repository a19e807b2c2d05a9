//! P1 to P12 through the boundary, with the numbers that document 01 prints.

use super::met::Met;
use super::player::Player;
use crate::calls::engine::answer::Outcome;
use crate::calls::engine::memory::{Lent, State, FINISHED, PLACES};
use crate::calls::host::{Answer, Call, Memory, Side};
use crate::support::checked::{same, Checked};
use crate::support::encode::encode;
use crate::support::program::{not, yes, Program};
use crate::support::worked;

/// Enough for S and no node more.
const S_NODES: usize = 6;

fn loaded<'a>(program: &Program, size: usize, side: &'a dyn Side, met: &'a mut Met) -> Result<Player<'a>, String> {
    let lent = Lent { words: vec![0xA5A5_A5A5; size], places: vec![0xA5A5; PLACES] };
    let (file, state) = (encode(program), State::ZEROS);
    let memory = Memory { file, lent, state, evidence: vec![], numbers: vec![9; size + 3], out: vec![0xEE; 30] };
    let mut player = Player::new(side, met, memory);
    same("loading", player.call(Call::Load)?.refusal(), 0)?;
    Ok(player)
}

/// Runs to the finish, and says how many updates that took.
fn finish(player: &mut Player) -> Result<u64, String> {
    match player.call(Call::Run(262_656))? {
        Answer::Ran(ran) if ran.outcome == Outcome::FINISHED => Ok(ran.updates),
        other => Err(format!("not finished: {other:?}")),
    }
}

fn weight(player: &mut Player, atom: u16) -> Result<u64, String> {
    match player.call(Call::Weight(atom.into()))? {
        Answer::Weighed(weighed) if weighed.refusal == 0 => Ok(weighed.weight),
        other => Err(format!("no weight: {other:?}")),
    }
}

/// Refusal and the two weights.
fn given(player: &mut Player, atom: u16, evidence: &[u16]) -> Result<(u32, u64, u64), String> {
    player.memory.evidence = evidence.to_vec();
    player.memory.numbers.fill(9);
    let answer = player.call(Call::Given(atom.into()))?;
    let last = player.memory.numbers.len() - 1;
    same("working numbers", player.memory.numbers[..last].iter().all(|number| *number == 0), true)?;
    same("number beyond", player.memory.numbers[last], 9)?;
    match answer {
        Answer::Shared(shared) => Ok((shared.refusal, shared.both, shared.evidence)),
        other => Err(format!("no shares: {other:?}")),
    }
}

/// P1 to P7.
pub fn file_s(side: &dyn Side, met: &mut Met) -> Checked {
    let mut player = loaded(&worked::s(), S_NODES, side, met)?;
    same("updates", finish(&mut player)?, 8)?;
    for (atom, expected) in (0..).zip([5, 8, 5, 2, 2, 3]) {
        same(&format!("weight of atom {atom}"), weight(&mut player, atom)?, expected)?;
    }
    // Conjoining "not 3" needs no node that the run did not leave.
    same("P5", given(&mut player, 2, &[not(3)])?, (0, 3, 18))?;
    same("P6", given(&mut player, 2, &[yes(3), not(3)])?, (20, 0, 0))?;
    let answer = player.call(Call::Listing(3))?;
    let listing = [2, 0, 2, 0, 3, 0, 1, 0, 0, 0, 1, 0, 0, 0, 0, 0, 2, 0];
    same("P7", &player.memory.out[..18], &listing)?;
    same("bytes beyond", &player.memory.out[18..], &[0xEE; 12])?;
    same("P7's answer", answer.refusal(), 0)?;
    Ok(10)
}

/// P8: with N = 5 the first update of atom 5 is refused with 12, by itself and in a run.
pub fn five_nodes(side: &dyn Side, met: &mut Met) -> Checked {
    let mut player = loaded(&worked::s(), S_NODES - 1, side, met)?;
    match player.call(Call::Run(262_656))? {
        Answer::Ran(ran) => same("P8", (ran.outcome, ran.updates, ran.state.layer), (Outcome::FULL, 6, 2))?,
        other => return Err(format!("{other:?}")),
    }
    same("P8 by itself", player.call(Call::Update(5))?.refusal(), 12)?;
    Ok(2)
}

/// P9 to P12.
pub fn others(side: &dyn Side, met: &mut Met) -> Checked {
    let mut player = loaded(&worked::wet(), 9, side, met)?;
    finish(&mut player)?;
    same("P9", weight(&mut player, 2)?, 44)?;
    same("P9's total", given(&mut player, 2, &[])?, (0, 44, 100))?;
    same("P10", given(&mut player, 0, &[not(2)])?, (0, 0, 56))?;
    let mut player = loaded(&worked::graph(), 100, side, player.into_met())?;
    finish(&mut player)?;
    same("P11", given(&mut player, worked::path(1, 2), &[])?, (0, 10, 16))?;
    same("P12", weight(&mut player, worked::path(2, 2))?, 4)?;
    same("finished", player.memory.state.layer, FINISHED)?;
    Ok(5)
}

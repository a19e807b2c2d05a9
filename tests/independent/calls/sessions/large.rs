//! The large jobs of `runs` through the boundary: stores full to the last of 4,096 nodes, all 544 places in use, the
//! longest file, 65,792 updates; with questions and damage at their ends.

use super::met::Met;
use super::player::Player;
use super::{asks, harm};
use crate::calls::engine::job::{Job, RUN, UPDATE};
use crate::calls::engine::jobs::large;
use crate::calls::engine::memory::{Lent, State, PLACES};
use crate::calls::engine::programs::parity;
use crate::calls::host::{Answer, Call, Memory, Side};
use crate::file::decode;
use crate::support::checked::{same, Checked};
use crate::support::encode::encode;
use crate::support::random::Random;

pub fn jobs(side: &dyn Side, met: &mut Met) -> Checked {
    let before = met.calls;
    for (number, job) in large::jobs().iter().enumerate() {
        play(job, number as u64, side, met).map_err(|told| format!("large job {number}: {told}"))?;
    }
    Ok(met.calls - before)
}

fn lent(file: Vec<u8>, size: usize) -> Memory {
    let lent = Lent { words: vec![0xA5A5_A5A5; size], places: vec![0xA5A5; PLACES] };
    Memory { file, lent, state: State::ZEROS, evidence: vec![], numbers: vec![9; size + 2], out: vec![] }
}

fn play(job: &Job, number: u64, side: &dyn Side, met: &mut Met) -> Result<(), String> {
    let mut player = Player::new(side, met, lent(job.file.clone(), job.size.into()));
    if player.call(Call::Load)?.refusal() != 0 {
        return Ok(());
    }
    for call in &job.calls {
        player.call(match call.what {
            RUN => Call::Run(call.number.into()),
            UPDATE => Call::Update(call.number),
            _ => Call::Close,
        })?;
    }
    let mut random = Random::new(number);
    let program = decode(&job.file).map_err(|refusal| format!("{refusal:?}"))?;
    for turn in 0..16 {
        if turn % 4 < 3 {
            let call = asks::question(&program, &mut player.memory, &mut random);
            player.call(call)?;
        } else {
            let mut changed = harm::harmed(&player.memory, &program, &mut random);
            let call = asks::question(&program, &mut changed, &mut random);
            player.aside(changed, call)?;
        }
    }
    Ok(())
}

/// An odd number of 32 facts, 31 of 2/2 and one of 1/2: half of all choices, and half of a total of 3 * 2^62.
pub fn largest_weights(side: &dyn Side, met: &mut Met) -> Checked {
    let mut program = parity(32);
    program.facts = vec![(2, 2); 32];
    program.facts[17] = (1, 2);
    let mut player = Player::new(side, met, lent(encode(&program), 4_096));
    same("loading", player.call(Call::Load)?.refusal(), 0)?;
    player.call(Call::Run(262_656))?;
    for atom in 32..64 {
        match player.call(Call::Weight(atom))? {
            Answer::Weighed(weighed) => same("half of the total", weighed.weight, 3 << 61)?,
            other => return Err(format!("{other:?}")),
        }
    }
    match player.call(Call::Given(63))? {
        Answer::Shared(shared) => same("given nothing", (shared.both, shared.evidence), (3 << 61, 3 << 62))?,
        other => return Err(format!("{other:?}")),
    }
    Ok(33)
}

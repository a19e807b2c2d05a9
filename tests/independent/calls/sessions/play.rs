//! Plays one session.

use super::asks;
use super::draw::{self, Kind};
use super::harm;
use super::meaning::Meaning;
use super::met::Met;
use super::player::Player;
use crate::calls::engine::memory::{FINISHED, LARGEST, PLACES};
use crate::calls::host::{Answer, Call, Side};
use crate::support::program::Program;
use crate::support::random::Random;

/// Everything that a session is played with.
struct Session<'a> {
    kind: Kind,
    program: Program,
    meaning: Option<Meaning>,
    random: Random,
    player: Player<'a>,
    /// Whether the store is one that no call gave; it then means nothing.
    strayed: bool,
}

/// An error is the first difference, with what is needed to find it again.
pub fn play(kind: Kind, number: u64, side: &dyn Side, met: &mut Met) -> Result<(), String> {
    // Apart from each other for all kinds.
    let mut random = Random::new(number.wrapping_mul(8).wrapping_add(kind as u64));
    let program = draw::program(kind, &mut random);
    let memory = draw::memory(kind, &program, &mut random);
    let (meaning, player) = (Meaning::of(&program), Player::new(side, met, memory));
    let mut session = Session { kind, program, meaning, random, player, strayed: false };
    session.play().map_err(|told| format!("session {kind:?} {number}: {told}"))
}

impl Session<'_> {
    fn play(&mut self) -> Result<(), String> {
        self.before_loading()?;
        let loaded = self.player.call(Call::Load)?;
        if loaded.refusal() != 0 {
            return Ok(());
        }
        self.look()?;
        if self.kind == Kind::Asked {
            self.finish()?;
        }
        for _ in 0..6 + self.random.below(18) {
            self.next()?;
        }
        self.finish()
    }

    /// Calls on memory that was never loaded, and loadings that are refused.
    fn before_loading(&mut self) -> Result<(), String> {
        let call = asks::any(&self.program, &mut self.player.memory, &mut self.random);
        self.player.aside(self.player.memory.clone(), call)?;
        for _ in 0..if self.kind == Kind::Harmed { 6 } else { 1 } {
            let mut changed = self.player.memory.clone();
            match self.random.below(8) {
                0 => changed.lent.places.truncate(PLACES - 1),
                1 => changed.lent.words.truncate(self.program.facts.len().saturating_sub(1)),
                2 => changed.lent.places.clear(),
                _ => harm::file(&mut changed, &mut self.random),
            }
            self.player.aside(changed, Call::Load)?;
        }
        Ok(())
    }

    fn next(&mut self) -> Result<(), String> {
        let harms = if self.kind == Kind::Harmed { 6 } else { 1 };
        if self.random.below(10) < harms {
            return self.harm();
        }
        if self.random.below(6) == 0 {
            self.resize();
        }
        if self.random.below(30) == 0 {
            return self.reload();
        }
        let call = match self.kind {
            Kind::Asked => asks::question(&self.program, &mut self.player.memory, &mut self.random),
            _ => asks::any(&self.program, &mut self.player.memory, &mut self.random),
        };
        self.made(call)?;
        self.look()
    }

    /// A second loading starts afresh, whatever the store held.
    fn reload(&mut self) -> Result<(), String> {
        let before = self.player.memory.clone();
        if self.player.call(Call::Load)?.refusal() == 0 {
            self.strayed = false;
            return self.look();
        }
        self.player.memory = before;
        Ok(())
    }

    /// One call and what it says, held against the meaning.
    fn made(&mut self, call: Call) -> Result<Answer, String> {
        let answer = self.player.call(call)?;
        let (Some(meaning), false) = (&self.meaning, self.strayed) else { return Ok(answer) };
        let memory = &self.player.memory;
        match (call, answer) {
            (Call::Given(atom), Answer::Shared(shared)) => {
                meaning.shared(atom as usize, &memory.evidence, shared)?;
            }
            (Call::Listing(atom), Answer::Listed(listed)) if listed.refusal == 0 => {
                meaning.listing(atom as usize, &memory.out[..listed.length as usize])?;
            }
            (Call::Weight(atom), Answer::Weighed(weighed)) if weighed.refusal == 0 => {
                meaning.weight(memory.state, atom as usize, weighed.weight)?;
            }
            _ => {}
        }
        Ok(answer)
    }

    /// The weight so far of every atom; of one where there are too many facts to know what it should be.
    fn look(&mut self) -> Result<(), String> {
        self.player.memory.numbers = vec![7; self.player.memory.lent.size() + 2];
        let atoms = self.program.atoms() as u32;
        let first = if self.meaning.is_some() || atoms == 0 { 0 } else { self.random.below(atoms as usize) as u32 };
        let end = if self.meaning.is_some() { atoms } else { atoms.min(first + 1) };
        for atom in first..end {
            self.made(Call::Weight(atom))?;
        }
        Ok(())
    }

    /// A store may be lent shorter or longer from call to call, as long as its nodes in use have room.
    fn resize(&mut self) {
        let (nodes, lent) = (self.player.memory.state.nodes as usize, &mut self.player.memory.lent);
        if self.kind != Kind::Long && nodes <= LARGEST {
            lent.words.resize((nodes + self.random.below(6)).min(LARGEST), 0);
        }
    }

    fn harm(&mut self) -> Result<(), String> {
        let Session { program, random, player, .. } = self;
        let mut changed = harm::harmed(&player.memory, program, random);
        let call = asks::any(program, &mut changed, random);
        let answer = player.aside(changed.clone(), call)?;
        let stays = changed.file == player.memory.file && answer.refusal() != 36 && random.below(8) == 0;
        if stays {
            player.memory = changed;
            self.strayed = true;
        }
        Ok(())
    }

    /// Runs to the end, in a larger store where this one is full, and asks everything there.
    fn finish(&mut self) -> Result<(), String> {
        if self.strayed {
            return Ok(());
        }
        let budget = self.random.pick(&[262_656, 65_536 + 7, 1 << 32, u64::MAX]);
        self.made(Call::Run(budget))?;
        if self.player.memory.state.layer != FINISHED {
            self.player.memory.lent.words.resize(LARGEST, 0);
            self.made(Call::Run(budget))?;
        }
        self.look()?;
        if self.player.memory.state.layer != FINISHED || self.meaning.is_none() {
            return Ok(());
        }
        for atom in 0..self.program.atoms() as u32 {
            self.player.memory.out = vec![0xEE; 6 * 300];
            self.made(Call::Listing(atom))?;
        }
        for _ in 0..6 {
            let call = asks::question(&self.program, &mut self.player.memory, &mut self.random);
            self.made(call)?;
        }
        Ok(())
    }
}

//! A stand-in for the library: the honest one must be right everywhere, mutants must be found out.

use super::judge::ROOM;
use super::mutant::Mutant;
use super::search;
use super::side::Side;
use super::web::Web;
use crate::calls::engine::answer::Listed;
use crate::file::mutants;
use crate::file::{decode_without_eleven, Refusal};
use crate::support::encode::push2;
use crate::support::program::Program;

pub struct StandIn(pub Mutant);

impl Side for StandIn {
    fn layers(&self, file: &[u8], out: &mut Vec<u8>) -> Result<Listed, String> {
        let refused = |refusal: Refusal| Listed { refusal: refusal.number, detail: refusal.detail, length: 0 };
        Ok(self.answer(file, out).unwrap_or_else(refused))
    }
}

impl StandIn {
    fn is(&self, mutant: Mutant) -> bool {
        self.0 == mutant
    }

    fn answer(&self, file: &[u8], out: &mut [u8]) -> Result<Listed, Refusal> {
        let early = !self.is(Mutant::TwentyOneAfterFile) && !self.is(Mutant::TwentyOneByNeed);
        if early && !self.spared(file) {
            self.test_room(out.len())?;
        }
        let program = self.read(file)?;
        if self.is(Mutant::TwentyOneAfterFile) {
            self.test_room(out.len())?;
        }
        let web = Web::of(&program, self.0);
        if self.is(Mutant::ThirtySevenBeforeTwentyFour) {
            self.test_apart(&program, &web)?;
        }
        match search::named(&program, &web, self.0) {
            Some(atom) => self.refuse_with_chain(&program, &web, atom, out),
            None => self.give_layers(&program, &web, out),
        }
    }

    // Refusals before the rules' meaning.

    fn test_room(&self, room: usize) -> Result<(), Refusal> {
        let short = match self.0 {
            Mutant::OneByteLessTaken => room < ROOM - 1,
            Mutant::OneByteMoreNeeded => room < ROOM + 1,
            Mutant::RoomInTwoBytes => room % 65_536 < ROOM,
            _ => room < ROOM,
        };
        if short {
            return Err(Refusal { number: 21, detail: 0 });
        }
        Ok(())
    }

    /// For one mutant: a file without derived atoms.
    fn spared(&self, file: &[u8]) -> bool {
        self.is(Mutant::NoAtomsNeedNoRoom) && self.read(file).is_ok_and(|program| program.layers.is_empty())
    }

    fn read(&self, file: &[u8]) -> Result<Program, Refusal> {
        let mutant = match self.0 {
            Mutant::File(mutant) => mutant,
            Mutant::TwentyFourBeforeLeftover => {
                let taken = decode_without_eleven(file, mutants::Mutant::LeftoverTaken)?;
                let web = Web::of(&taken, Mutant::None);
                return match search::named(&taken, &web, Mutant::None) {
                    Some(_) => Ok(taken),
                    None => decode_without_eleven(file, mutants::Mutant::None),
                };
            }
            _ => mutants::Mutant::None,
        };
        decode_without_eleven(file, mutant)
    }

    // A chain.

    fn refuse_with_chain(&self, program: &Program, web: &Web, atom: usize, out: &mut [u8]) -> Result<Listed, Refusal> {
        let bytes = self.chain_bytes(&self.shown(program, web, atom, out.len()));
        if self.is(Mutant::TwentyOneByNeed) {
            self.test_need(bytes.len(), out)?;
        }
        let written = if self.is(Mutant::NoChainWritten) { 0 } else { bytes.len() };
        out[..written].copy_from_slice(&bytes[..written]);
        if self.is(Mutant::RestClearedAtTwentyFour) {
            out[written..].fill(0);
        }
        let length = match self.0 {
            Mutant::NoLengthAtTwentyFour => 0,
            Mutant::LengthWithoutCount => written - 2,
            _ => written,
        };
        let first = if self.is(Mutant::NamedWithoutFacts) { program.facts.len() } else { 0 };
        Ok(Listed { refusal: 24, detail: (atom - first) as u32, length: length as u64 })
    }

    /// The numbers that are shown as a chain.
    fn shown(&self, program: &Program, web: &Web, atom: usize, room: usize) -> Vec<usize> {
        let rings = self.is(Mutant::ChainWithoutNegation) || self.is(Mutant::PlainRingRefused);
        let mut chain = search::chain(web, atom, !rings);
        match self.0 {
            Mutant::EmptyChainShown => chain.clear(),
            Mutant::ChainTwice if 2 + 4 * chain.len() <= room => chain.extend_from_within(..),
            Mutant::RulesFromOne => chain.iter_mut().for_each(|rule| *rule += 1),
            Mutant::AtomsShown => chain.iter_mut().for_each(|rule| *rule = usize::from(program.rules[*rule].head)),
            Mutant::SecondRuleFirst => chain.rotate_left(1),
            Mutant::ChainBackward => chain[1..].reverse(),
            Mutant::LastRuleMissing => drop(chain.pop()),
            Mutant::FirstRuleAgain => chain.push(chain[0]),
            _ => {}
        }
        chain
    }

    fn chain_bytes(&self, chain: &[usize]) -> Vec<u8> {
        let count = if self.is(Mutant::CountInBytes) { 2 * chain.len() } else { chain.len() };
        let count = if self.is(Mutant::CountMissing) { None } else { Some(&count) };
        let mut bytes = Vec::new();
        for number in count.into_iter().chain(chain) {
            let number = *number as u16;
            push2(&mut bytes, if self.is(Mutant::ChainBigEndian) { number.swap_bytes() } else { number });
        }
        bytes
    }

    // Layers.

    fn give_layers(&self, program: &Program, web: &Web, out: &mut [u8]) -> Result<Listed, Refusal> {
        let mut layers = search::heights(program, web, self.0);
        match self.0 {
            Mutant::LegalFromTheTop => layers = search::from_the_top(program, web, &layers),
            Mutant::GivenLayersAnswered => {
                layers = (0..web.atoms).map(|atom| usize::from(program.layer(atom))).collect();
            }
            _ => {}
        }
        let bytes = self.layer_bytes(program, &layers);
        if self.is(Mutant::TwentyOneByNeed) {
            self.test_need(bytes.len(), out)?;
        }
        if let Some(atom) = self.too_high(&layers) {
            return self.refuse_height(program, atom, &bytes, out);
        }
        out[..bytes.len()].copy_from_slice(&bytes);
        if self.is(Mutant::RestCleared) {
            out[bytes.len()..].fill(0);
        }
        let length = if self.is(Mutant::LengthIsRoom) { out.len() } else { bytes.len() };
        Ok(Listed { refusal: 0, detail: 0, length: length as u64 })
    }

    fn test_need(&self, need: usize, out: &[u8]) -> Result<(), Refusal> {
        if need > out.len() {
            return Err(Refusal { number: 21, detail: 0 });
        }
        Ok(())
    }

    fn layer_bytes(&self, program: &Program, layers: &[usize]) -> Vec<u8> {
        let first = if self.is(Mutant::LayersOfFactsToo) { 0 } else { program.facts.len() };
        let mut bytes = Vec::new();
        for layer in &layers[first..] {
            match self.0 {
                Mutant::LayersFromZero => bytes.push((*layer as u8).wrapping_sub(1)),
                Mutant::LayersInTwoBytes => push2(&mut bytes, *layer as u16),
                Mutant::LayersCapped => bytes.push((*layer).min(255) as u8),
                _ => bytes.push(*layer as u8),
            }
        }
        bytes
    }

    /// The atom that 37 names.
    fn too_high(&self, layers: &[usize]) -> Option<usize> {
        let highest = match self.0 {
            Mutant::TwoFiftyFiveTooHigh => 254,
            Mutant::TwoFiftySixTaken => 256,
            Mutant::LayersWrap | Mutant::LayersCapped => usize::MAX,
            _ => 255,
        };
        let mut high = (0..layers.len()).filter(|atom| layers[*atom] > highest);
        match self.0 {
            Mutant::LowestLayerNamed => high.min_by_key(|atom| layers[*atom]),
            Mutant::HighestLayerNamed => high.max_by_key(|atom| layers[*atom]),
            _ => high.next(),
        }
    }

    fn refuse_height(&self, program: &Program, atom: usize, layers: &[u8], out: &mut [u8]) -> Result<Listed, Refusal> {
        if self.is(Mutant::LayersWrittenAtThirtySeven) {
            out[..layers.len()].copy_from_slice(layers);
        }
        let first = if self.is(Mutant::HighNamedWithoutFacts) { program.facts.len() } else { 0 };
        let length = if self.is(Mutant::LengthAtThirtySeven) { layers.len() } else { 0 };
        Ok(Listed { refusal: 37, detail: (atom - first) as u32, length: length as u64 })
    }

    /// For one mutant: 37 for an atom whose layer no chain touches.
    fn test_apart(&self, program: &Program, web: &Web) -> Result<(), Refusal> {
        let on_chain = web.on_chain();
        let touched = |atom: usize| (0..web.atoms).any(|on| on_chain[on] && (on == atom || web.reaches(atom, on)));
        let mut layers = search::heights(program, web, self.0);
        (0..web.atoms).filter(|atom| touched(*atom)).for_each(|atom| layers[atom] = 0);
        match self.too_high(&layers) {
            Some(atom) => Err(Refusal { number: 37, detail: atom as u32 }),
            None => Ok(()),
        }
    }
}

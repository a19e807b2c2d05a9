//! All files and output lengths with which layers are asked for, in named groups.

use super::judge::ROOM;
use super::{by_hand, chance, ladders};
use crate::file::corpus::{self, by_chance, fixed, Group};
use crate::file::corpus::{damage, orders};
use crate::support::encode::encode;

pub struct Ask {
    pub file: Vec<u8>,
    /// Length of the output.
    pub room: usize,
}

/// Output lengths about all edges; the last look short where they are cut to two bytes.
const ROOMS: [usize; 20] = [
    0, 1, 2, 3, 255, 256, 512, 1_024, 2_046, 2_047, 2_048, 2_049, 2_050, 4_096, 4_100, 65_535, 65_536, 65_537, 67_583,
    131_072,
];

/// The rooms of most files are drawn by their number: too short in one of 16, whatever the file holds.
pub fn room(number: usize) -> usize {
    match number % 16 {
        0 => ROOMS[number / 16 % 10],
        1 => ROOMS[10 + number / 16 % 5],
        2 if number % 256 == 2 => ROOMS[15 + number / 256 % 5],
        _ => ROOM,
    }
}

/// The groups by chance grow with the scale; the others are always the same. Those of the reader come early: they show
/// most mutants in little time.
pub fn groups(scale: u64) -> Vec<Group> {
    let by_hand = fixed("rule sets by hand", || by_hand::cases().iter().map(|(program, _)| encode(program)).collect());
    let others = vec![
        by_chance("given layers broken, and faults behind", 40_000 * scale, chance::faulty),
        by_chance("small rule sets", 60_000 * scale, chance::small),
        by_chance("small rings", 30_000 * scale, chance::small_rings),
        by_chance("middling rule sets", 3_000 * scale, chance::medium),
        fixed("ladders", || ladders::heights().iter().map(encode).collect()),
        fixed("long chains", || ladders::long_chains().iter().map(encode).collect()),
        by_chance("deep rule sets", 100 * scale, chance::deep),
        by_chance("large rings", 100 * scale, chance::large_rings),
        by_chance("large rule sets", 60 * scale, chance::large),
    ];
    std::iter::once(by_hand).chain(of_reading(scale)).chain(others).collect()
}

/// The files on which the reader is compared: legal ones, and those with every kind of fault. Of those that come by the
/// ten thousand, a part.
fn of_reading(scale: u64) -> Vec<Group> {
    // Two layers say nothing here, and the numbers of heads and literals are below.
    let left_out = ["every head", "every literal", "every pair of layers"];
    let mut groups = corpus::groups(scale);
    groups.retain(|group| !left_out.contains(&group.name));
    groups.push(fixed("every head", || orders::heads().into_iter().step_by(3).collect()));
    groups.push(fixed("every literal", || orders::single_literals().into_iter().step_by(3).collect()));
    for group in &mut groups {
        let files = std::mem::replace(&mut group.files, Box::new(std::iter::empty()));
        let part = files.enumerate().filter(|(number, _)| *number < 2_000 || number % 5 == 0);
        group.files = Box::new(part.map(|(_, file)| file));
    }
    groups
}

/// Some files of every kind at every output length.
pub fn every_room() -> impl Iterator<Item = Ask> {
    let by_hand = by_hand::cases().into_iter().map(|(program, _)| encode(&program));
    let by_hand = by_hand.filter(|file| file.len() < 1_000).chain(high());
    let bytes = damage::every_byte().into_iter().step_by(401);
    let broken = damage::broken_off().into_iter().step_by(43);
    let files = by_hand.chain(bytes).chain(broken).chain((0..60).map(chance::faulty));
    files.flat_map(|file| ROOMS.map(|room| Ask { file: file.clone(), room }))
}

/// A layer of 256, and a chain that fills the least output.
fn high() -> impl Iterator<Item = Vec<u8>> {
    [ladders::up(2, 256), ladders::longest_chain(1)].into_iter().map(|program| encode(&program))
}

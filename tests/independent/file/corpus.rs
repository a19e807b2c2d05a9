//! All files on which the library is compared, in named groups.

pub mod chance;
pub mod damage;
pub mod orders;
pub mod shapes;
pub mod totals;

pub struct Group {
    pub name: &'static str,
    pub files: Box<dyn Iterator<Item = Vec<u8>>>,
}

/// The groups by chance grow with the scale; the others are always the same.
pub fn groups(scale: u64) -> Vec<Group> {
    vec![
        fixed("worked files and edges", shapes::worked),
        fixed("legal oddities", shapes::oddities),
        fixed("body of every length", shapes::body_limits),
        fixed("every byte at every value", damage::every_byte),
        fixed("bytes appended", damage::appended),
        fixed("two faulty rules", orders::two_faulty_rules),
        fixed("two faulty literals", orders::two_faulty_literals),
        fixed("facts, layers and rules at fault", orders::facts_layers_rules),
        fixed("counts moved with their offsets", damage::moved_counts),
        fixed("totals", totals::totals),
        fixed("one rule in every mix", orders::rule_mixes),
        fixed("every head", orders::heads),
        fixed("every literal", orders::single_literals),
        fixed("every pair of layers", orders::layer_pairs),
        fixed("pairs of header damage", damage::header_pairs),
        fixed("counts at their limits", shapes::count_limits),
        fixed("lengths about the longest", shapes::lengths),
        fixed("broken off", damage::broken_off),
        fixed("legal files of every size", shapes::sizes),
        by_chance("legal files by chance", 2_000 * scale, chance::legal_file),
        by_chance("faulty programs by chance", 50_000 * scale, chance::faulty_program),
        by_chance("damaged files by chance", 50_000 * scale, chance::damaged_file),
        by_chance("bytes by chance behind a header", 20_000 * scale, chance::random_bytes),
    ]
}

/// Made only when the group's turn comes, so that not all files lie in memory at once.
pub fn fixed(name: &'static str, make: fn() -> Vec<Vec<u8>>) -> Group {
    Group { name, files: Box::new(std::iter::once_with(make).flatten()) }
}

pub fn by_chance(name: &'static str, count: u64, make: fn(u64) -> Vec<u8>) -> Group {
    Group { name, files: Box::new((0..count).map(make)) }
}

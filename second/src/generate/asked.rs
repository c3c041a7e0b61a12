//! Who asks: those whom a file names, others, and numbers of nobody.

use super::entities::named_in;
use super::random::Random;
use crate::reading::RECORD;
use crate::Rules;

/// Numbers of nobody, some of which look like one's when cut.
pub fn no_entity(random: &mut Random, someone: u64) -> u64 {
    *random.pick(&[
        0,
        0,
        500,
        500,
        501,
        999,
        1_000,
        someone + 500,
        someone + 512,
        someone + 1_000,
        someone + (1 << 16),
        someone + (1 << 32),
        someone + (1 << 63),
        someone * 10_000,
        u64::MAX,
        u64::MAX - someone,
    ])
}

/// The entities that all records of this type name.
pub fn named(file: &[u8], kind: u8) -> Vec<u64> {
    let records = file.chunks_exact(RECORD);
    records
        .filter(|record| record[0] == kind)
        .filter_map(named_in)
        .map(|named| named as u64 % 500)
        .filter(|&entity| entity > 0)
        .collect()
}

pub fn any_of(random: &mut Random, entities: &[u64]) -> u64 {
    if entities.is_empty() {
        random.between(1, 499) as u64
    } else {
        *random.pick(entities)
    }
}

/// Someone on the roster or not on it, where there is one.
pub fn on_roster(random: &mut Random, rules: &Rules, listed: bool) -> u64 {
    let wanted: Vec<u64> = (1..500)
        .filter(|&entity| rules.roster[entity as usize] == listed)
        .collect();
    any_of(random, &wanted)
}

//! Files for the reading: all families in turn.

use super::case::Case;
use super::counters::counter_file;
use super::good::any_file;
use super::random::{Random, FLIPS};
use super::{damage, large, lengths, session, structure, sums};

/// The large files come first; after them each twenty-four files hold all families.
pub fn generate(seed: u64, number: u64) -> Case {
    let mut random = Random::new(seed, number);
    let Some(number) = number.checked_sub(large::LARGE) else {
        return large::large_file(&mut random, number);
    };
    let (round, family) = (number / 24, number % 24);
    match family {
        0 => Case::good("good", &any_file(&mut random)),
        1..=3 => damage::one_fault(&mut random),
        4 | 5 => damage::two_faults_in_one_record(&mut random),
        6 | 7 => damage::two_faults_in_two_records(&mut random),
        8..=12 => counter_file(&mut random),
        13..=18 => flip(seed, round * 6 + family - 13),
        19 | 20 => structure::damaged_structure(&mut random),
        21 => session::damaged_rules(&mut random),
        22 => lengths::damaged_length(&mut random),
        // Files of more than a hundred records are rare, so that the rest goes quickly.
        _ if random.once_in(10) => sums::amount_sums(&mut random),
        _ => damage::one_fault(&mut random),
    }
}

/// Any file but a large one, good or damaged.
pub fn any_generated(random: &mut Random, seed: u64) -> Case {
    generate(seed, large::LARGE + random.below(1 << 40) as u64)
}

/// 256 flips in a row share their file and their byte. Every position of every kind of record comes once in 658 such runs.
fn flip(seed: u64, number: u64) -> Case {
    let (run, value) = (number / 256, number % 256);
    let mut random = Random::new(seed, FLIPS + run);
    lengths::flipped(&mut random, run as usize, value as u8)
}

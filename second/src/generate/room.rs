//! Lent buffers: how long they are, and what they hold before.

use super::random::Random;
use crate::reading::RECORD;

/// Around the length of what is to be written, and far from it.
pub fn any_size(random: &mut Random, length: usize) -> usize {
    let shorter = random.below(length);
    let more = random.between(1, 300);
    match random.below(20) {
        0..=6 => length,
        7 | 8 => length + 1,
        9 | 10 => length + more,
        11 => length + RECORD,
        12 => length + 5_000,
        13 | 14 => length.saturating_sub(1),
        15 => length.saturating_sub(RECORD),
        16 => 0,
        17 => 1,
        _ => shorter,
    }
}

/// Any bytes, so that those that stay are seen.
pub fn filled(random: &mut Random, size: usize) -> Vec<u8> {
    let mut bytes: Vec<u8> = (0..size.div_ceil(8))
        .flat_map(|_| random.draw().to_le_bytes())
        .collect();
    bytes.truncate(size);
    bytes
}

/// Also 93 bytes, which take no record.
pub fn any_room(random: &mut Random, length: usize) -> usize {
    if random.once_in(24) {
        return RECORD - 1;
    }
    any_size(random, length)
}

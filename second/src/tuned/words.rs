//! Positions of a record taken eight at a time. All bytes are known to be characters by now.

use crate::reading::RECORD;

pub type Record = [u8; RECORD];

const EIGHT_BLANKS: u64 = u64::from_le_bytes(*b"        ");
const EIGHT_ZEROS: u64 = u64::from_le_bytes(*b"00000000");

/// Added to the value of a digit this stays below 128; added to that of any other character it does not.
const PAST_NINE: u64 = 0x7676_7676_7676_7676;
const TOP_BITS: u64 = 0x8080_8080_8080_8080;

/// So many bytes from this position on; positions as the standards print them, from 1.
#[inline(always)]
pub fn bytes<const N: usize>(record: &Record, from: usize) -> &[u8; N] {
    let bytes = record[from - 1..].first_chunk();
    bytes.expect("a field lies within its record")
}

/// Eight bytes from this position on, the first of them the lowest.
#[inline(always)]
pub fn word(record: &Record, from: usize) -> u64 {
    u64::from_le_bytes(*bytes(record, from))
}

/// The values of up to eight digits: the last of them the highest byte, zeros before the first.
#[inline(always)]
pub fn values(record: &Record, from: usize, to: usize) -> u64 {
    let others = 8 * (7 + from - to) as u32;
    if to < 8 {
        return (word(record, from) ^ EIGHT_ZEROS) << others;
    }
    (word(record, to - 7) ^ EIGHT_ZEROS) >> others << others
}

/// A mark for each value that is no digit's. Characters are below 96, so nothing is carried from one byte to the next.
#[inline(always)]
pub fn strays(values: u64) -> u64 {
    values.wrapping_add(PAST_NINE) & TOP_BITS
}

/// A first number of four digits in the lower half, a second one in the upper.
#[inline(always)]
pub fn fours(values: u64) -> u64 {
    let pairs = (values.wrapping_mul((10 << 8) + 1) >> 8) & 0x00ff_00ff_00ff_00ff;
    (pairs.wrapping_mul((100 << 16) + 1) >> 16) & 0x0000_ffff_0000_ffff
}

/// The number of all eight digits.
#[inline(always)]
pub fn joined(fours: u64) -> u64 {
    fours.wrapping_mul((10_000 << 32) + 1) >> 32
}

/// The number of a field of up to sixteen digits; a blank is no digit.
#[inline(always)]
pub fn number(record: &Record, from: usize, to: usize) -> Option<u64> {
    let short = to < from + 8;
    let last = values(record, if short { from } else { to - 7 }, to);
    let first = if short {
        0
    } else {
        values(record, from, to - 8)
    };
    let number = joined(fours(first)) * 100_000_000 + joined(fours(last));
    (strays(first) | strays(last) == 0).then_some(number)
}

#[inline(always)]
pub fn all_digits(record: &Record, from: usize, to: usize) -> bool {
    number(record, from, to).is_some()
}

/// Whether a field of eight to 24 positions has more than blanks. Any other character has a bit that a blank has not.
#[inline(always)]
pub fn has_text(record: &Record, from: usize, to: usize) -> bool {
    let between = (from + 8).min(to - 7);
    word(record, from) | word(record, between) | word(record, to - 7) != EIGHT_BLANKS
}

/// Positions 88-94 where they are known to be digits.
#[inline(always)]
pub fn counter(record: &Record) -> u64 {
    joined(fours(values(record, 88, 94)))
}

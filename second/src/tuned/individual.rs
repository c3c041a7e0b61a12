//! Types 6 and 7: the individual record and its additional, as they are when good. What is wrong with any other is found elsewhere.

use super::judge::admit;
use super::picture::Picture;
use super::words::{bytes, fours, has_text, joined, strays, values, word, Record};
use crate::rules::Rules;

/// What the rest of the file needs of an individual record found good.
#[derive(Clone, Copy)]
pub struct Individual {
    /// Entity and branch of fields 4-11, as in `fours`.
    pub destination: u64,
    pub amount: u64,
    /// Whether the amount is one of codes 37 and 36.
    pub is_debit: bool,
    /// All bits where the code is 36 or 31, none where it is not.
    rejection: u64,
    pub has_additional: bool,
    /// 88-94, to be compared only.
    pub sequence: u64,
    /// 80-87 and 87-94 as they stand.
    counter: [u64; 2],
}

/// Positions 2-33: code, destination, a zero, account, and the first of the amount.
const BEGINNING: Picture<32> = Picture::of(b"39999999990999999999999999999999");
/// Positions 79-94: flag and counter.
const END: Picture<16> = Picture::of(b"1999999999999999");
/// Positions 4-35 of a motive.
const MOTIVE: Picture<32> = Picture::of(b"R99999999999999999      99999999");
/// Positions 84-87 of a concept.
const CONCEPT: Picture<4> = Picture::of(b"9999");

/// `last` is the sequence of the individual record before in the same batch, or none.
#[inline(always)]
pub fn individual(rules: &Rules, sender: u64, last: u64, record: &Record) -> Option<Individual> {
    // Pictures come first: the compiler takes bytes many at a time only as long as it holds no words of them.
    let pictures = BEGINNING.shows(bytes(record, 2)) & END.shows(bytes(record, 79));
    if !pictures {
        return None;
    }
    let code = record[2];
    let destination = fours(values(record, 4, 11));
    let eight = values(record, 32, 39);
    let amount = first_two(record) * 100_000_000 + joined(fours(eight));
    let sequence = sequence_of(record);
    let good = admit(rules, destination & 0xffff).is_ok()
        && strays(eight) == 0
        && amount > 0
        && has_text(record, 40, 54)
        && has_text(record, 55, 76)
        && is_informed(code, record)
        && word(record, 80) == sender
        && sequence > last;
    if !good {
        return None;
    }
    Some(Individual {
        destination,
        amount,
        is_debit: matches!(code, b'7' | b'6'),
        // Of the last digits 7, 6, 2 and 1 it is 6 and 1 in which bits 0 and 2 differ.
        rejection: u64::from((code ^ code >> 2) & 1).wrapping_neg(),
        has_additional: record[78] == b'1',
        sequence,
        counter: [word(record, 80), word(record, 87)],
    })
}

/// The number of the amount's first two digits.
#[inline(always)]
fn first_two(record: &Record) -> u64 {
    let two = u64::from(u16::from_le_bytes(*bytes(record, 30)) ^ 0x3030);
    (two & 0xff) * 10 + (two >> 8)
}

/// The last seven of these eight positions, the first of them in the highest byte: greater where the number is.
#[inline(always)]
const fn sequence(counter: u64) -> u64 {
    counter.swap_bytes() << 8
}

/// Of an individual record, to be compared only.
#[inline(always)]
pub fn sequence_of(record: &Record) -> u64 {
    sequence(word(record, 87))
}

/// What comes before the first of a batch.
pub const NO_SEQUENCE: u64 = sequence(u64::from_le_bytes(*b"00000000"));

/// By the last digit of the code, what `is_informed` must stay below; nothing does where there is no such code.
const BELOW: [u32; 16] = [0, 1, 1, 0, 0, 0, 0x101, 0x1_0001, 0, 0, 0, 0, 0, 0, 0, 0];

/// The code, and positions 77-79. Codes come in no order, so nothing branches on them.
#[inline(always)]
fn is_informed(code: u8, record: &Record) -> bool {
    // Zero for "001", which goes with every code; 0x100 more for "01" and 0x10000 more for a flag of 0.
    let beside = u32::from_le_bytes(*bytes(record, 76)) >> 8 ^ u32::from_le_bytes(*b"001\0");
    beside & !0x1_0100 == 0 && beside < BELOW[usize::from(code & 15)]
}

impl Individual {
    pub fn is_rejection(&self) -> bool {
        self.rejection != 0
    }

    /// Whether this additional may follow. Both forms are looked at and one is taken: where they alternate, guessing costs more.
    #[inline(always)]
    pub fn takes(&self, record: &Record) -> bool {
        let motive = self.rejection;
        let form = if motive == 0 { *b"05" } else { *b"99" };
        let no_motive = u64::from(!MOTIVE.shows(bytes(record, 4)));
        // A motive has digits there too, if it repeats the counter.
        let no_concept = u64::from(!CONCEPT.shows(bytes(record, 84)));
        let sender = word(record, 80) ^ self.counter[0];
        let counter = (word(record, 87) ^ self.counter[1]) >> 8;
        *bytes(record, 2) == form && (no_motive | sender) & motive | no_concept | counter == 0
    }
}

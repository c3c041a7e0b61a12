//! Types 8 and 9: sums, and the controls that must repeat them.

use super::individual::Individual;
use super::words::{bytes, number, word, Record};
use crate::refusal::{require, FORMAT};

/// Control totals keep their last ten digits.
const TEN_DIGITS: u64 = 10_000_000_000;

/// 10,000 records of ten-digit amounts stay far below 64 bits, so sums are exact.
#[derive(Clone, Copy, Default)]
pub struct Sums {
    /// Number of types 6 and 7.
    pub entries: u64,
    /// Entities and branches apart, as in `fours`: 10,000 of either stay below 32 bits.
    destinations: u64,
    amounts: u64,
    debits: u64,
}

impl Sums {
    /// Codes come in no order: an amount of nothing is added rather than a branch guessed.
    #[inline(always)]
    pub fn add_individual(&mut self, individual: &Individual) {
        let amount = individual.amount;
        self.destinations += individual.destination;
        self.amounts += amount;
        self.debits += if individual.is_debit { amount } else { 0 };
    }

    pub fn add(&mut self, batch: &Sums) {
        self.entries += batch.entries;
        self.destinations += batch.destinations;
        self.amounts += batch.amounts;
        self.debits += batch.debits;
    }

    /// The sum of the destinations as a control has it.
    fn control_total(&self) -> u64 {
        let (entities, branches) = (self.destinations as u32, self.destinations >> 32);
        (u64::from(entities) * 10_000 + branches) % TEN_DIGITS
    }

    fn credits(&self) -> u64 {
        self.amounts - self.debits
    }
}

pub fn check_batch_control(header: &Record, sums: &Sums, record: &Record) -> Result<(), u16> {
    let repeats = bytes::<3>(record, 2) == bytes(header, 2)
        && bytes::<10>(record, 45) == bytes(header, 41)
        && word(record, 80) == word(header, 80)
        && word(record, 87) == word(header, 87);
    let agrees = number(record, 5, 10) == Some(sums.entries)
        && number(record, 11, 20) == Some(sums.control_total())
        && number(record, 21, 32) == Some(sums.debits)
        && number(record, 33, 44) == Some(sums.credits());
    require(repeats && agrees, FORMAT)
}

/// `records` counts this one too.
pub fn check_file_control(
    batches: u64,
    records: u64,
    sums: &Sums,
    record: &Record,
) -> Result<(), u16> {
    let agrees = number(record, 2, 7) == Some(batches)
        && number(record, 8, 13) == Some(records.div_ceil(10))
        && number(record, 14, 21) == Some(sums.entries)
        && number(record, 22, 31) == Some(sums.control_total())
        && number(record, 32, 43) == Some(sums.debits)
        && number(record, 44, 55) == Some(sums.credits());
    require(agrees, FORMAT)
}

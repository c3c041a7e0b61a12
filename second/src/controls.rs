//! Types 8 and 9: sums, and the controls that must repeat them.

use crate::fields::{field, field_mut, number, write_number};
use crate::individual::{Code, Individual};
use crate::refusal::{require, FORMAT};

/// Control totals keep their last ten digits.
const TEN_DIGITS: u64 = 10_000_000_000;

/// 10,000 records of ten-digit amounts stay far below 64 bits, so sums are exact.
#[derive(Clone, Copy, Default)]
pub struct Sums {
    /// Number of types 6 and 7.
    entries: u64,
    destinations: u64,
    debits: u64,
    credits: u64,
}

impl Sums {
    pub fn add_individual(&mut self, individual: &Individual) {
        let code = Some(individual.code);
        self.add(code, individual.destination, individual.amount);
    }

    /// An individual record that may yet be refused: a bad number counts as nothing.
    pub fn add_record(&mut self, record: &[u8]) {
        let or_nothing = |field| number(field).unwrap_or(0);
        let destination = or_nothing(field(record, 4, 11));
        let amount = or_nothing(field(record, 30, 39));
        self.add(Code::of(record), destination, amount);
    }

    /// An amount of no code belongs to neither sum.
    fn add(&mut self, code: Option<Code>, destination: u64, amount: u64) {
        self.entries += 1;
        self.destinations += destination;
        match code.map(Code::is_debit) {
            Some(true) => self.debits += amount,
            Some(false) => self.credits += amount,
            None => {}
        }
    }

    pub fn add_additional(&mut self) {
        self.entries += 1;
    }

    pub fn add_batch(&mut self, batch: &Sums) {
        self.entries += batch.entries;
        self.destinations += batch.destinations;
        self.debits += batch.debits;
        self.credits += batch.credits;
    }
}

pub fn check_batch_control(header: &[u8], sums: &Sums, record: &[u8]) -> Result<(), u16> {
    let repeats = field(record, 2, 4) == field(header, 2, 4)
        && field(record, 45, 54) == field(header, 41, 50)
        && field(record, 80, 94) == field(header, 80, 94);
    let agrees = holds(record, 5, 10, sums.entries)
        && holds(record, 11, 20, sums.destinations % TEN_DIGITS)
        && holds(record, 21, 32, sums.debits)
        && holds(record, 33, 44, sums.credits);
    require(repeats && agrees, FORMAT)
}

pub fn check_file_control(
    batches: u64,
    records: u64,
    sums: &Sums,
    record: &[u8],
) -> Result<(), u16> {
    let agrees = holds(record, 2, 7, batches)
        && holds(record, 8, 13, records.div_ceil(10))
        && holds(record, 14, 21, sums.entries)
        && holds(record, 22, 31, sums.destinations % TEN_DIGITS)
        && holds(record, 32, 43, sums.debits)
        && holds(record, 44, 55, sums.credits);
    require(agrees, FORMAT)
}

/// The control that the check above wants; its free positions are blank.
pub fn write_batch_control(header: &[u8], sums: &Sums, record: &mut [u8]) {
    record.fill(b' ');
    record[0] = b'8';
    field_mut(record, 2, 4).copy_from_slice(field(header, 2, 4));
    write_number(field_mut(record, 5, 10), sums.entries);
    write_number(field_mut(record, 11, 20), sums.destinations);
    write_number(field_mut(record, 21, 32), sums.debits);
    write_number(field_mut(record, 33, 44), sums.credits);
    field_mut(record, 45, 54).copy_from_slice(field(header, 41, 50));
    field_mut(record, 80, 94).copy_from_slice(field(header, 80, 94));
}

/// `records` counts this one too.
pub fn write_file_control(batches: u64, records: u64, sums: &Sums, record: &mut [u8]) {
    record.fill(b' ');
    record[0] = b'9';
    write_number(field_mut(record, 2, 7), batches);
    write_number(field_mut(record, 8, 13), records.div_ceil(10));
    write_number(field_mut(record, 14, 21), sums.entries);
    write_number(field_mut(record, 22, 31), sums.destinations);
    write_number(field_mut(record, 32, 43), sums.debits);
    write_number(field_mut(record, 44, 55), sums.credits);
}

/// A sum with more digits than the field matches nothing that can stand in it.
fn holds(record: &[u8], from: usize, to: usize, value: u64) -> bool {
    number(field(record, from, to)) == Some(value)
}

//! The loop over the records of a file. The first fault is the answer.

use super::batch::check_batch_header;
use super::controls::{check_batch_control, check_file_control, Sums};
use super::header::check_file_header;
use super::individual::{individual, sequence_of, Individual, NO_SEQUENCE};
use super::records::Records;
use super::refusals;
use super::spans::first_repeat;
use super::words::{word, Record};
use crate::refusal::{require, Refusal, ADDITIONAL, COUNTER, FORMAT};
use crate::rules::Rules;

pub fn read(rules: &Rules, file: &[u8]) -> Result<(), Refusal> {
    let records: &[Record] = file.as_chunks().0;
    let mut reading = Reading {
        rules,
        records: Records(records),
        last: NO_SEQUENCE,
        falls: false,
        batches: 0,
        sums: Sums::default(),
    };
    let answer = reading.take_file(records.len());
    let place = records.len() - reading.records.left();
    if reading.falls {
        refuse_repeat(&records[..place])?;
    }
    answer.map_err(|number| Refusal { number, place })
}

/// All of these records are good by themselves, so that a repeat among them comes before any other fault.
#[cold]
fn refuse_repeat(records: &[Record]) -> Result<(), Refusal> {
    let refusal = |place| Refusal {
        number: COUNTER,
        place,
    };
    first_repeat(records).map_or(Ok(()), |place| Err(refusal(place)))
}

/// What of the records read so far is needed for those to come.
struct Reading<'a> {
    rules: &'a Rules,
    records: Records<'a>,
    /// The last sequence of the batch before.
    last: u64,
    /// Whether a batch has not begun above that: as long as none has, no counter can occur twice.
    falls: bool,
    batches: u64,
    sums: Sums,
}

impl Reading<'_> {
    /// Of so many records.
    fn take_file(&mut self, records: usize) -> Result<(), u16> {
        let header = self.records.record()?;
        require(header[0] == b'1', FORMAT)?;
        check_file_header(self.rules, header)?;
        self.records.advance();
        while self.records.record()?[0] != b'9' {
            self.take_batch()?;
        }
        let control = self.records.record()?;
        let read = records - self.records.left() + 1;
        check_file_control(self.batches, read as u64, &self.sums, control)?;
        self.records.advance();
        require(self.records.left() == 0, FORMAT)
    }

    fn take_batch(&mut self) -> Result<(), u16> {
        let header = self.records.record()?;
        require(header[0] == b'5', FORMAT)?;
        check_batch_header(self.rules, header)?;
        self.records.advance();
        let first = self.records.record()?;
        require(first[0] == b'6', FORMAT)?;
        self.falls |= sequence_of(first) <= self.last;
        let entries = self.records.left();
        let mut sums = self.take_entries(word(header, 80))?;
        sums.entries = (entries - self.records.left()) as u64;
        let control = self.records.record()?;
        match control[0] {
            b'8' => check_batch_control(header, &sums, control)?,
            // A surplus one has a number of its own.
            b'7' => return Err(ADDITIONAL),
            _ => return Err(FORMAT),
        }
        self.records.advance();
        self.batches += 1;
        self.sums.add(&sums);
        Ok(())
    }

    /// Individual records, each with its additional, as long as they come.
    #[inline(always)]
    fn take_entries(&mut self, sender: u64) -> Result<Sums, u16> {
        let mut sums = Sums::default();
        let mut last = NO_SEQUENCE;
        loop {
            let record = self.records.record()?;
            if record[0] != b'6' {
                self.last = last;
                return Ok(sums);
            }
            let Some(individual) = individual(self.rules, sender, last, record) else {
                return Err(refusals::of_individual(self.rules, sender, record));
            };
            last = individual.sequence;
            self.records.advance();
            sums.add_individual(&individual);
            if individual.has_additional {
                self.take_additional(&individual)?;
            }
        }
    }

    #[inline(always)]
    fn take_additional(&mut self, individual: &Individual) -> Result<(), u16> {
        let record = self.records.record()?;
        require(record[0] == b'7', ADDITIONAL)?;
        if !individual.takes(record) {
            return Err(refusals::of_additional(individual.is_rejection(), record));
        }
        self.records.advance();
        Ok(())
    }
}

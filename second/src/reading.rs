//! The reading: the length, then each record in order; the first fault is the answer.

use crate::controls::{check_batch_control, check_file_control, Sums};
use crate::counters::Counters;
use crate::fields::is_character;
use crate::headers::{check_batch_header, check_file_header, sender};
use crate::individual::{has_additional, Individual};
use crate::reader::Reader;
use crate::refusal::{require, Refusal, ADDITIONAL, FORMAT, LENGTH};
use crate::rules::Rules;

pub const RECORD: usize = 94;
const SHORTEST: usize = 2 * RECORD;
/// A file of more is too long.
pub const MOST_RECORDS: usize = 10_000;
const LONGEST: usize = MOST_RECORDS * RECORD;

/// The number of records of a good file.
pub fn read(rules: &Rules, file: &[u8]) -> Result<usize, Refusal> {
    read_by(Reader::house(rules), file)
}

/// The same, tuned in one thing: the characters of the whole file come first, with no way out before its end, so that the compiler takes
/// many at a time; those of a record are looked at only where that fails. It copies nothing and parses each field once as it is.
pub fn read_swept(rules: &Rules, file: &[u8]) -> Result<usize, Refusal> {
    let clean = file
        .iter()
        .fold(true, |clean, &byte| clean & is_swept(byte));
    read_tested(Reader::house(rules), clean, file)
}

/// The test of a character without a branch.
fn is_swept(byte: u8) -> bool {
    let printed = (32..=90).contains(&byte) | (byte == 95);
    printed & (byte != 34) & !(38..=39).contains(&byte)
}

/// The one reading, whoever reads.
pub fn read_by(reader: Reader, file: &[u8]) -> Result<usize, Refusal> {
    read_tested(reader, false, file)
}

fn read_tested(reader: Reader, clean: bool, file: &[u8]) -> Result<usize, Refusal> {
    if !(SHORTEST..=LONGEST).contains(&file.len()) || !file.len().is_multiple_of(RECORD) {
        return Err(Refusal::of_no_record(LENGTH));
    }
    let mut reading = Reading::new(reader, clean);
    for (place, record) in file.chunks_exact(RECORD).enumerate() {
        reading
            .take(record)
            .map_err(|number| Refusal { number, place })?;
    }
    reading.end().map_err(|number| Refusal {
        number,
        place: reading.records,
    })?;
    Ok(reading.records)
}

/// What of the records read so far is needed for those to come.
struct Reading<'a> {
    reader: Reader<'a>,
    /// All characters are known to be good.
    clean: bool,
    previous: Option<&'a [u8]>,
    records: usize,
    batches: u64,
    /// The last batch header; empty before the first batch.
    header: &'a [u8],
    individual: Option<Individual<'a>>,
    counters: Counters,
    batch: Sums,
    file: Sums,
}

impl<'a> Reading<'a> {
    fn new(reader: Reader<'a>, clean: bool) -> Self {
        Reading {
            reader,
            clean,
            previous: None,
            records: 0,
            batches: 0,
            header: &[],
            individual: None,
            counters: Counters::default(),
            batch: Sums::default(),
            file: Sums::default(),
        }
    }

    fn take(&mut self, record: &'a [u8]) -> Result<(), u16> {
        let good = self.clean || record.iter().all(|&byte| is_character(byte));
        require(good, FORMAT)?;
        check_order(self.previous, record[0])?;
        self.records += 1;
        match record[0] {
            b'1' => check_file_header(&self.reader, record)?,
            b'5' => self.open_batch(record)?,
            b'6' => self.take_individual(record)?,
            b'7' => self.take_additional(record)?,
            b'8' => self.close_batch(record)?,
            _ => check_file_control(self.batches, self.records as u64, &self.file, record)?,
        }
        self.previous = Some(record);
        Ok(())
    }

    fn open_batch(&mut self, record: &'a [u8]) -> Result<(), u16> {
        check_batch_header(&self.reader, self.batches, record)?;
        self.header = record;
        self.counters.open_batch();
        self.batch = Sums::default();
        Ok(())
    }

    fn take_individual(&mut self, record: &'a [u8]) -> Result<(), u16> {
        let sender = sender(self.header);
        let individual = Individual::check(&self.reader, sender, &mut self.counters, record)?;
        self.batch.add_individual(&individual);
        self.individual = Some(individual);
        Ok(())
    }

    fn take_additional(&mut self, record: &[u8]) -> Result<(), u16> {
        let individual = self.individual.as_ref().ok_or(ADDITIONAL)?;
        individual.check_additional(record)?;
        self.batch.add_additional();
        Ok(())
    }

    fn close_batch(&mut self, record: &[u8]) -> Result<(), u16> {
        check_batch_control(self.header, &self.batch, record)?;
        self.file.add_batch(&self.batch);
        self.batches += 1;
        Ok(())
    }

    fn end(&self) -> Result<(), u16> {
        let complete = self.previous.is_some_and(|record| record[0] == b'9');
        require(complete, FORMAT)
    }
}

/// Whether a record of this kind may follow the one before it.
fn check_order(previous: Option<&[u8]>, kind: u8) -> Result<(), u16> {
    let Some(previous) = previous else {
        return require(kind == b'1', FORMAT);
    };
    match (previous[0], kind) {
        (b'1' | b'8', b'5' | b'9') | (b'5', b'6') => Ok(()),
        (b'6', _) if has_additional(previous) => require(kind == b'7', ADDITIONAL),
        (b'6' | b'7', b'6' | b'8') => Ok(()),
        (b'6' | b'7', b'7') => Err(ADDITIONAL),
        _ => Err(FORMAT),
    }
}

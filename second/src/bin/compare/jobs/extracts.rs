//! Both programs on generated extractions.

use super::counters::fall;
use super::fields::{total, AMOUNT, DESTINATION};
use super::job::Seen;
use super::sharing::{is_received, reads_with_its_origin, shared_out};
use super::writing::Writing;
use second::generate::extract::{generate_extract, ExtractCase, Extraction};
use second::{proved, read, Written};

/// One extraction in so many is also made for everybody on the roster. No multiple of 2 or 3, so that all families come;
/// the large files come before the first.
const FOR_EVERYBODY: u64 = 41;

impl Writing for Extraction {
    const JOB: &'static str = "extracts";
    const CASE: &'static str = "extract";
    const RECORD: usize = 94;
    const OWN: &'static [u16] = &[206, 208];
    const GENERATE: fn(u64, u64) -> ExtractCase = generate_extract;

    fn by_proved(case: &ExtractCase) -> Result<Written, String> {
        let Extraction { entity, file } = &case.input;
        proved::extracted(&case.opening, *entity, file, &case.buffer)
    }

    fn check(case: &ExtractCase, number: u64, left: &Written) -> Result<(), String> {
        let Ok(length) = left.answer else {
            return Ok(());
        };
        reads_with_its_origin(case, &left.buffer[..length])?;
        is_received(case, &left.buffer[..length])?;
        if is_for_everybody(number) {
            shared_out(case)?;
        }
        Ok(())
    }

    fn file_length(&self) -> usize {
        self.file.len()
    }

    fn parts(&self) -> Vec<(String, usize, &[u8])> {
        vec![(format!("file-for-{}", self.entity), 94, &self.file)]
    }
}

fn is_for_everybody(number: u64) -> bool {
    number % FOR_EVERYBODY == FOR_EVERYBODY - 1
}

/// What of one batch goes to the entity.
pub struct Batch<'f> {
    pub header: &'f [u8],
    pub records: Vec<&'f [u8]>,
    pub control: &'f [u8],
}

impl Seen<ExtractCase> {
    pub fn entity(&self) -> u64 {
        self.case.input.entity
    }

    pub fn is_of_nobody(&self) -> bool {
        !(1..=499).contains(&self.entity())
    }

    pub fn would_be_refused(&self) -> bool {
        self.opened() && read(&self.case.rules, &self.case.input.file).is_err()
    }

    /// For how many it was made, where that was everybody on the roster.
    pub fn made_for(&self) -> u64 {
        let listed = self.case.rules.roster[1..].iter().filter(|&&listed| listed);
        let everybody = self.accepted() && is_for_everybody(self.number);
        listed.filter(|_| everybody).count() as u64
    }

    /// How often both programs have received what both had extracted.
    pub fn received(&self) -> u64 {
        u64::from(self.accepted()) + self.made_for()
    }

    pub fn header(&self) -> &[u8] {
        &self.case.input.file[..94]
    }

    /// The entity as it stands in the fields of its currency.
    pub fn digits(&self) -> Vec<u8> {
        let number = self.entity() + self.case.rules.currency.added();
        format!("{number:04}").into_bytes()
    }

    /// How many batches the file has.
    pub fn batches(&self) -> usize {
        let records = self.case.input.file.chunks(94);
        records.filter(|record| record[0] == b'5').count()
    }

    /// The batches of an accepted file that hold a record to the entity.
    pub fn held(&self) -> Vec<Batch<'_>> {
        let records: Vec<&[u8]> = self.case.input.file.chunks(94).collect();
        let batches = match records.as_slice() {
            [_, batches @ .., _] if self.accepted() => batches,
            _ => &[],
        };
        let digits = self.digits();
        let to_entity = |record: &&[u8]| record[0] == b'6' && record[3..7] == digits;
        batches
            .split_inclusive(|record| record[0] == b'8')
            .map(|batch| Batch {
                header: batch[0],
                records: batch.iter().copied().filter(to_entity).collect(),
                control: batch[batch.len() - 1],
            })
            .filter(|batch| !batch.records.is_empty())
            .collect()
    }

    pub fn headers(&self) -> Vec<&[u8]> {
        self.held().iter().map(|batch| batch.header).collect()
    }

    pub fn controls(&self) -> Vec<&[u8]> {
        self.held().iter().map(|batch| batch.control).collect()
    }

    /// The individual records to the entity.
    pub fn handed(&self) -> Vec<&[u8]> {
        let batches = self.held().into_iter();
        batches.flat_map(|batch| batch.records).collect()
    }

    /// Whether what is handed over falls.
    pub fn hands_over_falling(&self) -> bool {
        fall(&self.handed().concat())
    }

    pub fn largest_batch_total(&self) -> u64 {
        let batches = self.held().into_iter();
        let totals = batches.map(|batch| total(&batch.records, DESTINATION));
        totals.max().unwrap_or(0)
    }

    pub fn largest_sum(&self) -> u64 {
        let is_debit = |record: &&[u8]| matches!(&record[1..3], b"37" | b"36");
        let (debits, credits): (Vec<_>, Vec<_>) = self.handed().into_iter().partition(is_debit);
        total(&debits, AMOUNT).max(total(&credits, AMOUNT))
    }

    pub fn numbered_anew(&self) -> u64 {
        let numbers = (1..).map(|number| format!("{number:07}").into_bytes());
        let headers = self.headers().into_iter().zip(numbers);
        headers
            .filter(|(header, number)| header[87..94] != *number)
            .count() as u64
    }
}

//! A header body and a tray in the making.

use crate::generate::built::stripped_of;
use crate::generate::case::{accepted, refused, Answer, Case};
use crate::generate::draft::Draft;
use crate::reading::RECORD;
use crate::tray::TRAY_RECORD;
use crate::Rules;

pub type TrayRecord = [u8; TRAY_RECORD];

#[derive(Clone)]
pub struct TrayDraft {
    pub family: &'static str,
    pub rules: Rules,
    pub header: Vec<u8>,
    pub records: Vec<TrayRecord>,
    /// Bytes behind the last whole record.
    pub surplus: Vec<u8>,
    /// What the reading says of the built file, or would but for 207 and 201, where it is known.
    pub reading: Answer,
}

impl TrayDraft {
    /// The tray of a draft whose records keep their types.
    pub fn of(family: &'static str, draft: &Draft, reading: Answer) -> Self {
        TrayDraft::with(family, draft.rules.clone(), &draft.bytes(), reading)
    }

    pub fn good(family: &'static str, draft: &Draft) -> Self {
        TrayDraft::of(family, draft, accepted(draft))
    }

    /// Whatever of a file can stand in a tray.
    pub fn of_case(case: Case) -> Self {
        TrayDraft::with(case.family, case.rules, &case.file, case.expected)
    }

    fn with(family: &'static str, rules: Rules, file: &[u8], reading: Answer) -> Self {
        TrayDraft {
            family,
            rules,
            header: file[..RECORD.min(file.len())].to_vec(),
            records: tray_records(&stripped_of(file)),
            surplus: Vec::new(),
            reading,
        }
    }

    /// The same tray, of which nobody knows what the reading says.
    pub fn unknown(self) -> Self {
        TrayDraft {
            reading: None,
            ..self
        }
    }

    /// The same tray, refused by the reading where this record comes to stand.
    pub fn refused_at(self, number: u16, place: usize) -> Self {
        TrayDraft {
            reading: refused(number, self.place_in_file(place)),
            ..self
        }
    }

    pub fn bytes(&self) -> Vec<u8> {
        [self.records.as_flattened(), &self.surplus].concat()
    }

    /// The tray places of records with this mark.
    pub fn places(&self, mark: &[u8; 2]) -> Vec<usize> {
        (0..self.records.len())
            .filter(|&place| self.records[place].starts_with(mark))
            .collect()
    }

    /// Where a tray record stands in the file: behind the header and the controls of the batches before its own.
    pub fn place_in_file(&self, place: usize) -> usize {
        let headers = self.records[..=place].iter();
        let batches = headers.filter(|record| record.starts_with(b"LO")).count();
        1 + place + batches.saturating_sub(1)
    }
}

pub fn tray_records(tray: &[u8]) -> Vec<TrayRecord> {
    tray.chunks_exact(TRAY_RECORD)
        .map(|record| std::array::from_fn(|index| record[index]))
        .collect()
}

/// A record of which only the form is given.
pub fn empty_record(name: &[u8; 3]) -> TrayRecord {
    let mut record = [b' '; TRAY_RECORD];
    record[..3].copy_from_slice(name);
    record[TRAY_RECORD - 7..].fill(b'0');
    record
}

//! A company's file in the making, and what is known to be wrong with it.

use crate::generate::case::{refused, Answer};
use crate::generate::draft::{get_number, put, put_number};
use crate::generate::entities::field_number;
use crate::tray::TRAY_RECORD;
use crate::Currency;

/// Bytes of a detail, and of the closing record.
pub const DETAIL: usize = 250;

pub type Detail = [u8; DETAIL];

/// The refusals of a detail in their order.
const ORDER: [u16; 4] = [17, 203, 19, 75];

#[derive(Clone)]
pub struct CompanyDraft {
    pub family: &'static str,
    pub currency: Currency,
    pub lo: Vec<u8>,
    /// Whether the reading takes it.
    pub lo_reads: bool,
    pub details: Vec<Detail>,
    pub closing: Detail,
    /// Where this stands, it is the file, whatever the records are.
    pub bytes: Option<Vec<u8>>,
    /// How much room is lent beyond the tray's length, where that is given.
    pub over: Option<isize>,
    /// What is wrong: places and numbers, in no order.
    pub faults: Vec<(usize, u16)>,
    pub lo_is_bad: bool,
    pub closing_is_bad: bool,
    /// There may be faults that are not said here.
    pub is_unknown: bool,
}

impl CompanyDraft {
    pub fn bytes(&self) -> Vec<u8> {
        match &self.bytes {
            Some(bytes) => bytes.clone(),
            None => [self.details.as_flattened(), &self.closing].concat(),
        }
    }

    pub fn needed(&self) -> usize {
        let length = self.bytes.as_ref().map(Vec::len);
        TRAY_RECORD * (length.unwrap_or(DETAIL * (self.details.len() + 1)) / DETAIL)
    }

    pub fn named(mut self, family: &'static str) -> Self {
        self.family = family;
        self
    }

    /// 201, 207, the first fault of the first faulty detail, the closing record, 206.
    pub fn meant(&self, room: usize) -> Answer {
        if self.bytes.as_ref().is_some_and(|bytes| !is_length(bytes)) {
            return refused(201, 0);
        }
        if self.lo_is_bad {
            return refused(207, 0);
        }
        if self.is_unknown {
            return None;
        }
        let rank = |number| ORDER.iter().position(|&first| first == number);
        let first = |fault: &&(usize, u16)| (fault.0, rank(fault.1));
        match self.faults.iter().min_by_key(first) {
            Some(&(place, number)) => refused(number, place),
            None if self.closing_is_bad => refused(17, self.details.len()),
            None if self.needed() > room => refused(206, 0),
            None => Some(Ok(self.needed())),
        }
    }

    /// What the closing record should hold; a sum keeps its last ten digits.
    pub fn settle(&mut self) {
        let details = self.details.len() as u64;
        let sum = self.sum();
        put(&mut self.closing, 1, b"T");
        put_number(&mut self.closing, 2, 11, details);
        put_number(&mut self.closing, 12, 18, details);
        put_number(&mut self.closing, 19, 25, 0);
        put_number(&mut self.closing, 104, 113, sum);
    }

    pub fn sum(&self) -> u64 {
        let amounts = self
            .details
            .iter()
            .map(|detail| get_number(detail, 104, 113));
        amounts.sum()
    }

    /// The LO body's date as details print it, or any where it ends before.
    pub fn due(&self) -> [u8; 8] {
        printed_due(self.lo.get(69..75).unwrap_or(b"000101"))
    }
}

/// AAMMDD, whatever its bytes are, as ddmmaaaa of this century.
pub fn printed_due(date: &[u8]) -> [u8; 8] {
    let order = [4, 5, 2, 3, 6, 7, 0, 1];
    let with_century = [date, b"20"].concat();
    order.map(|index| with_century[index])
}

fn is_length(bytes: &[u8]) -> bool {
    !bytes.is_empty() && bytes.len() / DETAIL * DETAIL == bytes.len()
}

/// The tray of a file that has nothing wrong.
pub fn tray_of(currency: Currency, lo: &[u8], file: &[u8]) -> Vec<u8> {
    let mut tray = [b"LO", lo].concat();
    let mut records: Vec<&[u8]> = file.chunks(DETAIL).collect();
    records.pop();
    for detail in records {
        let entity = field_number(currency, get_number(detail, 34, 36));
        tray.extend_from_slice(format!("IN637{entity:04}").as_bytes());
        let branch = &detail[36..40];
        let (block_2, amount) = (&detail[44..58], &detail[103..113]);
        let (reference, client) = (&detail[88..103], &detail[58..80]);
        for part in [branch, b"0000", block_2, amount, reference, client] {
            tray.extend_from_slice(part);
        }
        tray.extend_from_slice(b"000");
        tray.extend_from_slice(&lo[79..87]);
        tray.extend_from_slice(b"0000000");
    }
    tray
}

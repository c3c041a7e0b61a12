//! The tray: records of 96 bytes, a mark of two before each body.

use crate::fields::field;
use crate::reading::RECORD;
use crate::refusal::{Refusal, TRAY};

const MARK: usize = 2;
pub const TRAY_RECORD: usize = MARK + RECORD;

/// What body positions 88-94 hold in a tray.
pub const NO_COUNTER: &[u8; 7] = b"0000000";

/// The mark of a body that begins so; nothing for what no tray holds.
pub fn mark(kind: u8) -> Option<&'static [u8; MARK]> {
    match kind {
        b'5' => Some(b"LO"),
        b'6' => Some(b"IN"),
        b'7' => Some(b"AD"),
        _ => None,
    }
}

pub fn bodies(tray: &[u8]) -> impl Iterator<Item = &[u8]> {
    let records = tray.chunks_exact(TRAY_RECORD);
    records.map(|record| &record[MARK..])
}

/// A tray record's two parts.
pub fn split(record: &mut [u8]) -> (&mut [u8], &mut [u8]) {
    record.split_at_mut(MARK)
}

/// Both lengths are judged before any record.
pub fn check_form(header: &[u8], tray: &[u8]) -> Result<(), Refusal> {
    if header.len() != RECORD || !tray.len().is_multiple_of(TRAY_RECORD) {
        return Err(Refusal::of_no_record(TRAY));
    }
    let mut records = tray.chunks_exact(TRAY_RECORD);
    match records.position(|record| !is_well_formed(record)) {
        Some(place) => Err(Refusal {
            number: TRAY,
            place,
        }),
        None => Ok(()),
    }
}

fn is_well_formed(record: &[u8]) -> bool {
    let (written, body) = record.split_at(MARK);
    mark(body[0]).is_some_and(|mark| mark == written) && field(body, 88, 94) == NO_COUNTER
}

//! What building and stripping should give, made from drafts whose controls are computed anew.

use super::draft::{get_number, put, put_number, Draft, Record};
use super::meant::{blank, records_of};
use crate::reading::RECORD;
use crate::tray::TRAY_RECORD;
use crate::{read, Refusal, Rules};

/// Bytes of the longest file.
pub const LONGEST: usize = 940_000;

/// The place of the first tray record without its form.
pub fn malformed(tray: &[u8]) -> Option<usize> {
    tray.chunks_exact(TRAY_RECORD).position(|record| {
        let named = [b"LO5", b"IN6", b"AD7"]
            .iter()
            .any(|name| record.starts_with(*name));
        !named || !record.ends_with(b"0000000")
    })
}

/// The length of the file that building would write: what is marked "LO" counts twice.
pub fn built_length(tray: &[u8]) -> usize {
    let records = tray.chunks_exact(TRAY_RECORD);
    let batches = records.clone().filter(|record| record.starts_with(b"LO"));
    RECORD * (2 + records.len() + batches.count())
}

/// The file that building would write of a header body and a tray that have their form.
pub fn built_of(rules: &Rules, header: &[u8], tray: &[u8]) -> Vec<u8> {
    let mut records = records_of(header);
    let mut batch_open = false;
    for record in tray.chunks_exact(TRAY_RECORD) {
        if record.starts_with(b"LO") {
            records.extend(batch_open.then(|| blank(b'8')));
            batch_open = true;
        }
        records.extend(records_of(&record[2..]));
    }
    records.extend(batch_open.then(|| blank(b'8')));
    records.push(blank(b'9'));
    let rules = rules.clone();
    let mut draft = Draft { rules, records };
    number_as_built(&mut draft);
    draft.settle();
    draft.bytes()
}

/// Batches 1, 2, .. and individual records 1, 2, .. through the file; the controls are not settled.
pub fn number_as_built(draft: &mut Draft) {
    // The header body may begin with anything.
    let records = &mut draft.records[1..];
    let headers = records.iter_mut().filter(|record| record[0] == b'5');
    for (header, number) in headers.zip(1..) {
        put_number(header, 88, 94, number);
    }
    number_individuals(records, 0);
}

/// Individual records one higher each, and additionals like theirs.
pub fn number_individuals(records: &mut [Record], before: u64) {
    let mut counter = before;
    for record in records {
        match record[0] {
            b'6' => counter += 1,
            b'7' => {}
            _ => continue,
        }
        put_number(record, 88, 94, counter);
    }
}

/// The answer to building into so much room: 207, 201, 206, then the reading's.
pub fn build_meant(
    rules: &Rules,
    header: &[u8],
    tray: &[u8],
    room: usize,
) -> Result<usize, Refusal> {
    let refused = |number, place| Err(Refusal { number, place });
    if header.len() != RECORD || !tray.len().is_multiple_of(TRAY_RECORD) {
        return refused(207, 0);
    }
    if let Some(place) = malformed(tray) {
        return refused(207, place);
    }
    match built_length(tray) {
        length if length > LONGEST => refused(201, 0),
        length if length > room => refused(206, 0),
        length => read(rules, &built_of(rules, header, tray)).map(|_| length),
    }
}

/// The length of the tray that stripping would write.
pub fn stripped_length(file: &[u8]) -> usize {
    let records = file.chunks_exact(RECORD);
    TRAY_RECORD * records.filter(|record| b"567".contains(&record[0])).count()
}

/// The tray of a file, whatever its records hold.
pub fn stripped_of(file: &[u8]) -> Vec<u8> {
    let mut tray = Vec::with_capacity(stripped_length(file));
    for record in records_of(file) {
        let mark: &[u8] = match record[0] {
            b'5' => b"LO",
            b'6' => b"IN",
            b'7' => b"AD",
            _ => continue,
        };
        tray.extend_from_slice(mark);
        tray.extend_from_slice(&record[..87]);
        tray.extend_from_slice(b"0000000");
    }
    tray
}

/// Whether a good file is numbered as building numbers, and blank in the free positions of its controls.
pub fn is_as_built(file: &[u8]) -> bool {
    let records = records_of(file);
    let numbered = |kind: u8| {
        let of_kind = records.iter().filter(|record| record[0] == kind);
        of_kind
            .zip(1..)
            .all(|(record, number)| get_number(record, 88, 94) == number)
    };
    let blank = records.iter().all(|record| {
        let free = match record[0] {
            b'8' => &record[54..79],
            b'9' => &record[55..94],
            _ => &[],
        };
        free.iter().all(|&byte| byte == b' ')
    });
    // An additional repeats its individual record's number, and a control its header's: the reading saw to that.
    numbered(b'5') && numbered(b'6') && blank
}

/// The free positions of all controls.
pub fn blank_controls(draft: &mut Draft) {
    for record in &mut draft.records {
        match record[0] {
            b'8' => put(record, 55, &[b' '; 25]),
            b'9' => put(record, 56, &[b' '; 39]),
            _ => {}
        }
    }
}

/// A good draft as building would have written it.
pub fn make_as_built(draft: &mut Draft) {
    number_as_built(draft);
    blank_controls(draft);
    draft.settle();
}

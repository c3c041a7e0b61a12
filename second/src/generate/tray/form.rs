//! Header bodies and trays without their form: what 207 is for.

use super::draft::{TrayDraft, TrayRecord};
use crate::generate::random::Random;
use crate::reading::RECORD;
use crate::tray::TRAY_RECORD;

const MARKS: [&[u8; 2]; 3] = [b"LO", b"IN", b"AD"];

/// One tray record loses its form, whichever way.
pub fn break_record(random: &mut Random, draft: &mut TrayDraft) {
    let record = any_record(random, draft);
    match random.below(3) {
        0 => break_mark(random, record),
        1 => break_kind(random, record),
        _ => break_tail(random, record),
    }
}

/// The first and the last often.
pub fn any_record<'d>(random: &mut Random, draft: &'d mut TrayDraft) -> &'d mut TrayRecord {
    let place = random.position(1, draft.records.len()) - 1;
    &mut draft.records[place]
}

/// One byte of the mark, or both, so that no mark is left.
pub fn break_mark(random: &mut Random, record: &mut TrayRecord) {
    match random.below(8) {
        0 => record.swap(0, 1),
        1 => record[..2].fill(b' '),
        2 => record[..2].make_ascii_lowercase(),
        _ => {
            let index = random.below(2);
            // Letters of the other marks make marks that are nearly good.
            record[index] = other_byte(random, record[index], b"LOINAD lo0");
        }
    }
}

/// Mark and first byte of the body are each good alone, or the first byte is no tray record's.
pub fn break_kind(random: &mut Random, record: &mut TrayRecord) {
    match random.below(6) {
        0 => {
            let marks = MARKS.iter().filter(|mark| !record.starts_with(**mark));
            let others: Vec<_> = marks.collect();
            let other = *random.pick(&others);
            record[..2].copy_from_slice(*other);
        }
        1 => record[2] = other_byte(random, record[2], b"567"),
        2 => record[2] = *random.pick(b"189"),
        _ => record[2] = other_byte(random, record[2], b"567189 0LIA"),
    }
}

/// A tail that is not seven zeros, in one position for the most part.
pub fn break_tail(random: &mut Random, record: &mut TrayRecord) {
    let tail = &mut record[TRAY_RECORD - 7..];
    let index = random.below(7);
    match random.below(8) {
        0 | 1 => tail[index] = b'1' + random.below(9) as u8,
        2 | 3 => tail[index] = b' ',
        4 => tail[index] = b'A' + random.below(26) as u8,
        5 => tail[index] = other_byte(random, b'0', b"/:O\0\xb0@"),
        6 => tail.fill(b' '),
        // A number that is left over from a file.
        _ => tail.copy_from_slice(b"0000001"),
    }
}

/// Often one of these, sometimes any, never the old one.
fn other_byte(random: &mut Random, old: u8, likely: &[u8]) -> u8 {
    loop {
        let any = random.byte();
        let byte = if random.once_in(3) {
            any
        } else {
            *random.pick(likely)
        };
        if byte != old {
            return byte;
        }
    }
}

/// So many bytes behind the last record, which look like the beginning of another.
pub fn lengthen(random: &mut Random, draft: &mut TrayDraft, bytes: usize) {
    let mut more = draft
        .records
        .first()
        .copied()
        .unwrap_or([b'0'; TRAY_RECORD]);
    if random.once_in(2) {
        more.fill_with(|| random.byte());
    }
    draft.surplus = more[..bytes].to_vec();
}

/// The header body is cut short, or is followed by something.
pub fn resize_header(random: &mut Random, draft: &mut TrayDraft) {
    let any = random.below(400);
    let length = loop {
        let length = *random.pick(&[0, 0, 1, 93, 93, 95, 95, 96, 188, 188, any]);
        if length != RECORD {
            break length;
        }
    };
    let header = draft.header.iter().copied().cycle();
    draft.header = header.take(length).collect();
}

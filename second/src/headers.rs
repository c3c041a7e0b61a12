//! Types 1 and 5: the headers of file and batch.

use crate::fields::{all_blank, all_digits, date, entity, field, is_time};
use crate::reader::Reader;
use crate::refusal::{require, DATE, FORMAT};

pub fn check_file_header(reader: &Reader, record: &[u8]) -> Result<(), u16> {
    require(field(record, 2, 3) == b"01", FORMAT)?;
    let destination = framed(field(record, 4, 13)).ok_or(FORMAT)?;
    require(all_digits(destination), FORMAT)?;
    let origin = framed(field(record, 14, 23)).ok_or(FORMAT)?;
    reader.check_origin(origin)?;
    require(date(field(record, 24, 29)) == Some(reader.rules.date), DATE)?;
    require(is_time(field(record, 30, 33)), FORMAT)?;
    require(matches!(record[33], b'0'..=b'9' | b'A'..=b'Z'), FORMAT)?;
    require(field(record, 35, 40) == b"094101", FORMAT)?;
    // Origin is printed twice: its form above, its currency and roster last.
    reader.admit_header(destination, origin)
}

/// What stands between the space and the zero of an immediate destination or origin.
fn framed(field: &[u8]) -> Option<&[u8]> {
    field.strip_prefix(b" ")?.strip_suffix(b"0")
}

/// So many batches stand before this one.
pub fn check_batch_header(reader: &Reader, before: u64, record: &[u8]) -> Result<(), u16> {
    require(all_digits(field(record, 2, 4)), FORMAT)?;
    require(!all_blank(field(record, 5, 20)), FORMAT)?;
    require(all_digits(field(record, 41, 50)), FORMAT)?;
    require(!all_blank(field(record, 54, 63)), FORMAT)?;
    // Any date will do here: only the file header's is held against the session.
    require(date(field(record, 70, 75)).is_some(), DATE)?;
    require(record[78].is_ascii_digit(), FORMAT)?;
    let sender = entity(sender(record)).ok_or(FORMAT)?;
    reader.rules.admit(sender)?;
    reader.check_batch_number(field(record, 88, 94), before)
}

pub fn sender(batch_header: &[u8]) -> &[u8] {
    field(batch_header, 80, 87)
}

//! Type 1, the file header.

use super::judge::admit;
use super::words::{all_digits, bytes, fours, number, strays, values, Record};
use crate::fields::is_date;
use crate::refusal::{require, DATE, FORMAT};
use crate::rules::Rules;

pub fn check_file_header(rules: &Rules, record: &Record) -> Result<(), u16> {
    require(bytes(record, 2) == b"01", FORMAT)?;
    require(is_framed(record, 4) && all_digits(record, 5, 12), FORMAT)?;
    let origin = values(record, 15, 22);
    let entity = fours(origin) & 0xffff;
    require(is_framed(record, 14) && strays(origin) == 0, FORMAT)?;
    require(matches!(entity, 1..=499 | 501..=999), FORMAT)?;
    let date = number(record, 24, 29).filter(|&date| is_date(date));
    require(date == Some(rules.date), DATE)?;
    require(is_time(record), FORMAT)?;
    require(matches!(record[33], b'0'..=b'9' | b'A'..=b'Z'), FORMAT)?;
    require(bytes(record, 35) == b"094101", FORMAT)?;
    // The origin's form was judged above; its currency and roster come last.
    admit(rules, entity)
}

/// A space before eight positions and a zero behind them.
fn is_framed(record: &Record, from: usize) -> bool {
    let frame: &[u8; 10] = bytes(record, from);
    frame[0] == b' ' && frame[9] == b'0'
}

/// Four blanks, or hours and minutes.
fn is_time(record: &Record) -> bool {
    let time = number(record, 30, 33);
    bytes(record, 30) == b"    " || time.is_some_and(|time| time < 24_00 && time % 100 < 60)
}

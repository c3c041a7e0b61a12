//! Type 5, the batch header.

use super::judge::admit;
use super::words::{all_digits, fours, has_text, number, strays, values, Record};
use crate::fields::is_date;
use crate::refusal::{require, DATE, FORMAT};
use crate::rules::Rules;

pub fn check_batch_header(rules: &Rules, record: &Record) -> Result<(), u16> {
    require(all_digits(record, 2, 4), FORMAT)?;
    require(has_text(record, 5, 20), FORMAT)?;
    require(all_digits(record, 41, 50), FORMAT)?;
    require(has_text(record, 54, 63), FORMAT)?;
    // Any date will do here: only the file header's is held against the session.
    require(number(record, 70, 75).is_some_and(is_date), DATE)?;
    require(record[78].is_ascii_digit(), FORMAT)?;
    let sender = values(record, 80, 87);
    require(strays(sender) == 0, FORMAT)?;
    admit(rules, fours(sender) & 0xffff)?;
    require(all_digits(record, 88, 94), FORMAT)
}

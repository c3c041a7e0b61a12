//! Why an individual record or an additional is refused: its checks in the order printed. Seldom asked, so written for reading.

use super::judge::admit;
use super::words::{all_digits, bytes, fours, has_text, number, values, word, Record};
use crate::refusal::{
    require, ACCOUNT, ADDITIONAL, AMOUNT, COUNTER, FORMAT, INFORMATION, REFERENCE, RESERVED,
};
use crate::rules::Rules;

/// The number for an individual record that is not good.
#[cold]
pub fn of_individual(rules: &Rules, sender: u64, record: &Record) -> u16 {
    let fault = check_numbers(rules, record).and_then(|()| check_texts(record));
    let fault = fault.and_then(|()| check_counter(sender, record));
    // Nothing else wrong leaves the sequence.
    fault.err().unwrap_or(COUNTER)
}

fn check_numbers(rules: &Rules, record: &Record) -> Result<(), u16> {
    require(
        matches!(bytes(record, 2), b"37" | b"36" | b"32" | b"31"),
        FORMAT,
    )?;
    require(all_digits(record, 4, 11), FORMAT)?;
    admit(rules, fours(values(record, 4, 11)) & 0xffff)?;
    require(record[11] == b'0', RESERVED)?;
    let account = all_digits(record, 13, 20) && all_digits(record, 21, 29);
    require(account, ACCOUNT)?;
    let amount = number(record, 30, 39);
    require(amount.is_some_and(|amount| amount > 0), AMOUNT)
}

fn check_texts(record: &Record) -> Result<(), u16> {
    require(has_text(record, 40, 54), REFERENCE)?;
    require(has_text(record, 55, 76), FORMAT)?;
    let code = record[2];
    let transaction = match bytes(record, 77) {
        b"00" => b'0',
        b"01" if matches!(code, b'7' | b'6') => b'1',
        _ => return Err(INFORMATION),
    };
    require(matches!(record[78], b'0' | b'1'), FORMAT)?;
    let plain_order = code == b'7' && transaction == b'0';
    require(record[78] == b'1' || plain_order, ADDITIONAL)
}

fn check_counter(sender: u64, record: &Record) -> Result<(), u16> {
    let digits = all_digits(record, 80, 87) && all_digits(record, 88, 94);
    require(digits, FORMAT)?;
    require(word(record, 80) == sender, COUNTER)
}

/// The number for an additional that an individual record, a rejection or not, does not take.
#[cold]
pub fn of_additional(rejection: bool, record: &Record) -> u16 {
    match (bytes(record, 2), rejection) {
        (b"99", true) if !is_motive(record) => FORMAT,
        (b"05", false) if !all_digits(record, 84, 87) => FORMAT,
        // Either its form or its counter is another's.
        _ => ADDITIONAL,
    }
}

fn is_motive(record: &Record) -> bool {
    record[3] == b'R'
        && all_digits(record, 5, 6)
        && all_digits(record, 7, 21)
        && bytes(record, 22) == b"      "
        && all_digits(record, 28, 35)
}

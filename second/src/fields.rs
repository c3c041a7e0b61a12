//! What the positions of a record may hold.

use crate::currency::Currency;

/// Positions as the standards print them: from 1, both ends included.
pub fn field(record: &[u8], from: usize, to: usize) -> &[u8] {
    &record[from - 1..to]
}

pub fn field_mut(record: &mut [u8], from: usize, to: usize) -> &mut [u8] {
    &mut record[from - 1..to]
}

pub fn is_character(byte: u8) -> bool {
    matches!(byte, 32..=95) && !matches!(byte, 34 | 38 | 39 | 91..=94)
}

pub fn all_digits(field: &[u8]) -> bool {
    field.iter().all(u8::is_ascii_digit)
}

pub fn all_blank(field: &[u8]) -> bool {
    field.iter().all(|&byte| byte == b' ')
}

/// The number that the digits spell; a blank is no digit.
pub fn number(field: &[u8]) -> Option<u64> {
    field.iter().try_fold(0, |value, byte| {
        byte.is_ascii_digit()
            .then(|| value * 10 + u64::from(byte - b'0'))
    })
}

/// The number's last digits, as many as the field takes.
pub fn write_number(field: &mut [u8], value: u64) {
    let mut rest = value;
    for byte in field.iter_mut().rev() {
        *byte = b'0' + (rest % 10) as u8;
        rest /= 10;
    }
}

/// AAMMDD, when it is a day of the years 2000 to 2099.
pub fn date(field: &[u8]) -> Option<u64> {
    number(field).filter(|&date| is_date(date))
}

/// The opening takes any number, so one of more than six digits must be no date.
pub fn is_date(date: u64) -> bool {
    let (year, month, day) = (date / 10_000, date / 100 % 100, date % 100);
    let days = match month {
        1 | 3 | 5 | 7 | 8 | 10 | 12 => 31,
        4 | 6 | 9 | 11 => 30,
        // From 2000 to 2099 each fourth year is a leap year, 2000 included.
        2 if year % 4 == 0 => 29,
        2 => 28,
        _ => 0,
    };
    year < 100 && (1..=days).contains(&day)
}

/// Four blanks, or hours and minutes.
pub fn is_time(field: &[u8]) -> bool {
    all_blank(field) || number(field).is_some_and(|time| time / 100 < 24 && time % 100 < 60)
}

#[derive(Clone, Copy, Debug, PartialEq, Eq)]
pub struct Entity {
    pub currency: Currency,
    /// 1 to 499 in both currencies.
    pub number: usize,
    /// All eight digits, for the control totals.
    pub value: u64,
}

/// Four digits for the entity, four for a branch that is not judged.
pub fn entity(field: &[u8]) -> Option<Entity> {
    let value = number(field)?;
    let (currency, number) = match value / 10_000 {
        entity @ 1..=499 => (Currency::Pesos, entity),
        entity @ 501..=999 => (Currency::Dollars, entity - 500),
        _ => return None,
    };
    Some(Entity {
        currency,
        number: number as usize,
        value,
    })
}

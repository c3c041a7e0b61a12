//! The company's file (02, ticket 4, in the layout of 004): details of 250 characters and a closing record give a tray.

use crate::fields::{
    all_blank, all_digits, date, field, field_mut, is_character, number, write_number,
};
use crate::reading::RECORD;
use crate::refusal::{
    require, Refusal, AMOUNT, BUFFER, DATE, FORMAT, LENGTH, OTHER_CURRENCY, TRAY,
};
use crate::tray::{split, NO_COUNTER, TRAY_RECORD};
use crate::Currency;

pub const COMPANY_RECORD: usize = 250;

type Record = [u8; COMPANY_RECORD];
type TrayRecord = [u8; TRAY_RECORD];

/// The number of bytes written. Those behind them stay, and all of them when it is refused.
pub fn company(
    currency: Currency,
    lo: &[u8],
    file: &[u8],
    out: &mut [u8],
) -> Result<usize, Refusal> {
    let (records, surplus) = file.as_chunks();
    let closed = records.split_last().filter(|_| surplus.is_empty());
    let (closing, details) = closed.ok_or(Refusal::of_no_record(LENGTH))?;
    if !is_batch_header(lo) {
        return Err(Refusal::of_no_record(TRAY));
    }
    let sum = judge(currency, due(lo), details)?;
    check_closing(closing, details.len(), sum).map_err(|number| Refusal {
        number,
        place: details.len(),
    })?;
    let length = TRAY_RECORD * (1 + details.len());
    let lent = out.get_mut(..length);
    let lent = lent.ok_or(Refusal::of_no_record(BUFFER))?;
    write(currency, lo, details, lent);
    Ok(length)
}

/// All that building asks of an LO before the reading.
fn is_batch_header(lo: &[u8]) -> bool {
    lo.len() == RECORD && lo[0] == b'5' && field(lo, 88, 94) == NO_COUNTER
}

/// The LO body's date as a company prints it, ddmmaaaa; none where it is no date, so that no detail can have it.
fn due(lo: &[u8]) -> Option<[u8; 8]> {
    let printed = field(lo, 70, 75);
    date(printed)?;
    let mut due = *b"ddmm20aa";
    due[..2].copy_from_slice(&printed[4..]);
    due[2..4].copy_from_slice(&printed[2..4]);
    due[6..].copy_from_slice(&printed[..2]);
    Some(due)
}

/// The sum of the amounts, or the first fault of the first record that has one.
fn judge(currency: Currency, due: Option<[u8; 8]>, details: &[Record]) -> Result<u64, Refusal> {
    let mut sum = 0;
    for (place, detail) in details.iter().enumerate() {
        let amount = check_detail(currency, due, detail);
        sum += amount.map_err(|number| Refusal { number, place })?;
    }
    Ok(sum)
}

/// The amount of a good detail.
fn check_detail(currency: Currency, due: Option<[u8; 8]>, detail: &Record) -> Result<u64, u16> {
    require(detail[0] == b'D', FORMAT)?;
    require(all_digits(block_1(detail)), FORMAT)?;
    require(all_digits(block_2(detail)), FORMAT)?;
    require(matches!(entity(detail), Some(1..=499)), FORMAT)?;
    require(is_text(reference(detail)), FORMAT)?;
    require(is_text(client(detail)), FORMAT)?;
    require(field(detail, 114, 115) == printed(currency), OTHER_CURRENCY)?;
    let good = number(amount(detail)).filter(|&amount| amount > 0);
    let amount = good.ok_or(AMOUNT)?;
    let is_due = due.is_some_and(|due| field(detail, 26, 33) == due);
    require(is_due, DATE)?;
    Ok(amount)
}

/// A sum or a number with more digits than its field is none that can stand in it.
fn check_closing(closing: &Record, details: usize, sum: u64) -> Result<(), u16> {
    let details = Some(details as u64);
    let agrees = closing[0] == b'T'
        && number(field(closing, 2, 11)) == details
        && number(field(closing, 12, 18)) == details
        && number(field(closing, 19, 25)) == Some(0)
        && number(field(closing, 104, 113)) == Some(sum);
    require(agrees, FORMAT)
}

fn write(currency: Currency, lo: &[u8], details: &[Record], lent: &mut [u8]) {
    let (places, _) = lent.as_chunks_mut();
    let (first, orders) = places.split_first_mut().expect("an LO has its place");
    let (marking, body) = split(first);
    marking.copy_from_slice(b"LO");
    body.copy_from_slice(lo);
    let blank_order = blank_order(lo);
    for (place, detail) in orders.iter_mut().zip(details) {
        *place = blank_order;
        fill_order(currency, detail, place);
    }
}

/// What all orders of a tray share: zeros wherever a detail does not say otherwise.
fn blank_order(lo: &[u8]) -> TrayRecord {
    let mut order = [b'0'; TRAY_RECORD];
    let (marking, body) = split(&mut order);
    marking.copy_from_slice(b"IN");
    field_mut(body, 1, 3).copy_from_slice(b"637");
    field_mut(body, 80, 87).copy_from_slice(field(lo, 80, 87));
    order
}

fn fill_order(currency: Currency, detail: &Record, order: &mut TrayRecord) {
    let (_, body) = split(order);
    let entity = entity(detail).unwrap_or(0) + currency.added();
    write_number(field_mut(body, 4, 7), entity);
    field_mut(body, 8, 11).copy_from_slice(field(detail, 37, 40));
    field_mut(body, 16, 29).copy_from_slice(block_2(detail));
    field_mut(body, 30, 39).copy_from_slice(amount(detail));
    field_mut(body, 40, 54).copy_from_slice(reference(detail));
    field_mut(body, 55, 76).copy_from_slice(client(detail));
}

/// Field 13 in details of this currency.
fn printed(currency: Currency) -> &'static [u8; 2] {
    match currency {
        Currency::Pesos => b"80",
        Currency::Dollars => b"82",
    }
}

/// Field 6: three digits for the entity, four for the branch, one to check them.
fn block_1(detail: &Record) -> &[u8] {
    field(detail, 34, 41)
}

fn entity(detail: &Record) -> Option<u64> {
    number(field(detail, 34, 36))
}

/// Field 8.
fn block_2(detail: &Record) -> &[u8] {
    field(detail, 45, 58)
}

/// Field 9.
fn client(detail: &Record) -> &[u8] {
    field(detail, 59, 80)
}

/// Field 11.
fn reference(detail: &Record) -> &[u8] {
    field(detail, 89, 103)
}

/// Field 12, in cents.
fn amount(detail: &Record) -> &[u8] {
    field(detail, 104, 113)
}

fn is_text(field: &[u8]) -> bool {
    !all_blank(field) && field.iter().all(|&byte| is_character(byte))
}

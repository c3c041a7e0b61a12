//! Good company files of all shapes.

use super::bytes::{put_digits, put_text};
use super::draft::{printed_due, CompanyDraft, Detail, DETAIL};
use super::lo::good_lo;
use crate::generate::draft::{put, put_number};
use crate::generate::entities::any_currency;
use crate::generate::good::any_date;
use crate::generate::random::Random;
use crate::generate::room::filled;
use crate::Currency;

/// The largest sum that the closing record can hold.
pub const LARGEST_SUM: u64 = 9_999_999_999;

/// What fields hold that nobody judges.
#[derive(Clone, Copy)]
enum Filling {
    /// As the layout wants it.
    Proper,
    Blank,
    Characters,
    /// Any bytes.
    Noise,
}

/// Small files for the most part.
pub fn any_good(random: &mut Random) -> CompanyDraft {
    let details = some_details(random);
    good_file(random, details)
}

/// A file with a detail at least.
pub fn with_details(random: &mut Random) -> CompanyDraft {
    let details = some_details(random).max(1);
    good_file(random, details)
}

/// Few for the most part; often around powers of two, at which a program may take details together.
fn some_details(random: &mut Random) -> usize {
    match random.below(400) {
        0 => random.between(300, 3_000),
        1 | 2 => random.between(100, 600),
        3..=10 => {
            let power = 1 << random.between(4, 9);
            random.between(power - 1, power + 1)
        }
        11..=40 => random.between(10, 100),
        41..=70 => 0,
        _ => random.between(1, 9),
    }
}

/// A file of so many details.
pub fn good_file(random: &mut Random, details: usize) -> CompanyDraft {
    let (currency, date) = (any_currency(random), any_date(random));
    let filling = *random.pick(&[
        Filling::Proper,
        Filling::Proper,
        Filling::Blank,
        Filling::Characters,
        Filling::Noise,
    ]);
    let mut draft = CompanyDraft {
        family: "good",
        currency,
        lo: good_lo(random, currency, date),
        lo_reads: true,
        details: Vec::new(),
        closing: closing_form(random, filling),
        bytes: None,
        over: None,
        faults: Vec::new(),
        lo_is_bad: false,
        closing_is_bad: false,
        is_unknown: false,
    };
    let (due, largest) = (draft.due(), LARGEST_SUM / details.max(1) as u64);
    draft.details = (0..details)
        .map(|_| {
            let mut detail = detail_form(random, filling);
            put(&mut detail, 26, &due);
            put_named(random, &mut detail, currency);
            let amount = any_amount(random, largest);
            put_number(&mut detail, 104, 113, amount);
            detail
        })
        .collect();
    draft.settle();
    draft
}

/// From one cent to this, both often.
pub fn any_amount(random: &mut Random, largest: u64) -> u64 {
    let small = random.between(1, 99_999) as u64;
    let any = random.between(1, largest as usize) as u64;
    let amount = *random.pick(&[1, largest, small, small, any, any]);
    amount.min(largest)
}

/// All fields that are judged but for date and amount.
fn put_named(random: &mut Random, detail: &mut Detail, currency: Currency) {
    detail[0] = b'D';
    let any = random.between(1, 499);
    let entity = *random.pick(&[1, 9, 10, 99, 100, 499, any, any, any, any]);
    put_number(detail, 34, 36, entity as u64);
    put_digits(random, detail, 37, 41);
    put_digits(random, detail, 45, 58);
    put_text(random, detail, 59, 80);
    put_text(random, detail, 89, 103);
    put(detail, 114, code(currency));
}

/// Field 13.
pub fn code(currency: Currency) -> &'static [u8; 2] {
    match currency {
        Currency::Pesos => b"80",
        Currency::Dollars => b"82",
    }
}

fn form(random: &mut Random, filling: Filling) -> Detail {
    let mut record = [b' '; DETAIL];
    match filling {
        Filling::Proper | Filling::Blank => {}
        Filling::Characters => record.fill_with(|| random.character()),
        Filling::Noise => record.copy_from_slice(&filled(random, DETAIL)),
    }
    record
}

fn detail_form(random: &mut Random, filling: Filling) -> Detail {
    let mut detail = form(random, filling);
    if let Filling::Proper = filling {
        put_digits(random, &mut detail, 2, 12);
        put(&mut detail, 16, b"SEGUROS");
        put(&mut detail, 42, b"000");
        put_later_dues(random, &mut detail);
        detail[176..196].fill(b'0');
    }
    detail
}

/// The original due date, and the second and third with their amounts, or zeros.
fn put_later_dues(random: &mut Random, detail: &mut Detail) {
    detail[115..151].fill(b'0');
    if random.once_in(2) {
        return;
    }
    for (from, amount) in [(81, None), (116, Some(124)), (134, Some(142))] {
        let date = format!("{:06}", any_date(random));
        put(detail, from, &printed_due(date.as_bytes()));
        if let Some(from) = amount {
            let cents = any_amount(random, LARGEST_SUM);
            put_number(detail, from, from + 9, cents);
        }
    }
}

fn closing_form(random: &mut Random, filling: Filling) -> Detail {
    let mut closing = form(random, filling);
    if let Filling::Proper = filling {
        put(&mut closing, 26, b"15062025");
    }
    closing
}

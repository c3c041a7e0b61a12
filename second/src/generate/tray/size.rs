//! Trays around a file's limit of 10,000 records, and far beyond it.

use super::draft::{empty_record, TrayDraft, TrayRecord};
use super::form::{break_record, lengthen};
use crate::generate::case::{refused, Answer};
use crate::generate::good::{Amounts, Maker, MODEST};
use crate::generate::random::Random;
use crate::Currency;

/// How many large trays a run surely holds; they come first.
pub const LARGE: u64 = 18;

const LIMIT: usize = 10_000;
const FAR: usize = 200_000;

pub fn large_tray(random: &mut Random, number: u64) -> TrayDraft {
    match number {
        0 | 1 => mixed(random, LIMIT),
        2 => mixed(random, LIMIT + 1),
        3 => batch_headers_only(random, LIMIT / 2 - 1),
        4 => batch_headers_only(random, LIMIT / 2),
        5 => one_kind(random, b"IN6", LIMIT - 2),
        6 => one_kind(random, b"IN6", LIMIT - 1),
        7 => one_kind(random, b"AD7", LIMIT - 2),
        8 => largest_amounts(random),
        9 => largest_destinations(random),
        10 => with_zero_amount(random, LIMIT),
        11 => mixed(random, 30_000),
        12 => mixed(random, FAR),
        13 => far_and_broken(random),
        14 => far_and_lengthened(random),
        15 => batch_headers_only(random, FAR),
        16 => with_zero_amount(random, LIMIT + 2),
        _ => one_kind(random, b"AD7", FAR),
    }
}

/// Around the limit, in every way of getting there; some with another fault.
pub fn near_limit(random: &mut Random) -> TrayDraft {
    let near = random.between(LIMIT - 10, LIMIT + 10);
    let records = *random.pick(&[LIMIT, LIMIT + 1, near, near]);
    let mut draft = match random.below(10) {
        0..=2 => mixed(random, records),
        3 => one_batch(random, records),
        4 => batch_headers_only(random, records / 2),
        5 => one_kind(random, b"IN6", records),
        6 => one_kind(random, b"AD7", records),
        7 | 8 => with_zero_amount(random, records),
        _ => {
            let far = random.between(LIMIT + 11, 30_000);
            mixed(random, far)
        }
    };
    if random.once_in(4) {
        break_record(random, &mut draft);
    }
    draft
}

/// A few batches whose amounts stay small however often they come.
fn small(random: &mut Random, batches: usize) -> TrayDraft {
    let mut maker = Maker::new(random);
    maker.amounts = MODEST;
    for _ in 0..batches {
        let entries = maker.random.between(1, 20);
        maker.batch(entries);
    }
    TrayDraft::of("around the limit", &maker.finish(), None)
}

/// Good batches whose file has exactly so many records, were it not for the limit.
pub fn mixed(random: &mut Random, records: usize) -> TrayDraft {
    let batches = random.between(1, 4);
    let mut draft = small(random, batches);
    let cycle = draft.records.clone();
    let each = cycle.len() + draft.places(b"LO").len();
    let rounds = (records - 2) / each;
    draft.records = cycle.repeat(rounds);
    let order = plain_order(&cycle);
    let missing = records - 2 - rounds * each;
    draft.records.extend(vec![order; missing]);
    draft.reading = accepted(records);
    draft
}

/// The same with a single batch of orders.
fn one_batch(random: &mut Random, records: usize) -> TrayDraft {
    let mut draft = small(random, 1);
    let order = plain_order(&draft.records);
    draft.records.truncate(1);
    draft.records.extend(vec![order; records - 4]);
    draft.reading = accepted(records);
    draft
}

fn accepted(records: usize) -> Answer {
    if records > LIMIT {
        refused(201, 0)
    } else {
        Some(Ok(records))
    }
}

/// The last individual record as an order without additional.
fn plain_order(records: &[TrayRecord]) -> TrayRecord {
    let mut individuals = records.iter().rev();
    let last = individuals.find(|record| record.starts_with(b"IN"));
    let mut order = *last.expect("each batch holds individual records");
    order[3..5].copy_from_slice(b"37");
    order[78..81].copy_from_slice(b"000");
    order
}

/// Each is followed by its control, so that a tray of 5,000 is too long already.
fn batch_headers_only(random: &mut Random, records: usize) -> TrayDraft {
    let mut draft = small(random, 1);
    draft.records = vec![draft.records[0]; records];
    draft.reading = refused(17, 2);
    draft
}

/// No batch header, so that there is no control either.
fn one_kind(random: &mut Random, name: &[u8; 3], records: usize) -> TrayDraft {
    let mut draft = small(random, 1);
    draft.records = vec![empty_record(name); records];
    draft.reading = refused(17, 1);
    draft
}

/// One amount somewhere is zero.
fn with_zero_amount(random: &mut Random, records: usize) -> TrayDraft {
    let mut draft = mixed(random, records);
    let individuals = draft.places(b"IN");
    let place = individuals[random.position(1, individuals.len()) - 1];
    draft.records[place][31..41].fill(b'0');
    draft.reading = refused(19, draft.place_in_file(place));
    draft
}

/// One batch of 9,996 orders for the most that an amount can be: fourteen digits.
fn largest_amounts(random: &mut Random) -> TrayDraft {
    let mut draft = one_batch(random, LIMIT);
    for record in &mut draft.records[1..] {
        record[31..41].fill(b'9');
    }
    draft.reading = refused(17, LIMIT - 2);
    draft
}

/// One batch of 9,996 orders of one cent to the largest destination: the totals keep their last ten digits.
fn largest_destinations(random: &mut Random) -> TrayDraft {
    let mut maker = Maker::new(random);
    maker.rules.currency = Currency::Dollars;
    maker.rules.roster[499] = true;
    maker.destination = Some(*b"09999999");
    maker.amounts = Amounts::All(1);
    maker.batch(1);
    let mut draft = TrayDraft::of("around the limit", &maker.finish(), Some(Ok(LIMIT)));
    let order = draft.records[1];
    draft.records.extend(vec![order; LIMIT - 5]);
    draft
}

fn far_and_broken(random: &mut Random) -> TrayDraft {
    let mut draft = mixed(random, FAR);
    if let Some(last) = draft.records.last_mut() {
        last[95] = b'1';
    }
    draft
}

fn far_and_lengthened(random: &mut Random) -> TrayDraft {
    let mut draft = mixed(random, FAR);
    lengthen(random, &mut draft, 1);
    draft
}

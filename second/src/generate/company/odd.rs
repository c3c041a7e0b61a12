//! LO bodies that only building's 207 lets pass, those that it does not, and those whose date is none.

use super::bytes::{any_other, no_digit};
use super::dates::pick_no_date;
use super::draft::CompanyDraft;
use super::faults::{any_fault, put_any};
use super::good::any_good;
use crate::fields::date;
use crate::generate::draft::{put, put_number};
use crate::generate::good::any_date;
use crate::generate::random::Random;
use crate::reading::RECORD;

/// Where an LO body's tail begins, from 0.
const TAIL: usize = 87;

/// Any bytes wherever neither building's 207 nor the due dates look.
pub fn odd_lo_body(random: &mut Random) -> CompanyDraft {
    let mut draft = any_good(random).named("odd LO body");
    let others = (1..69).chain(75..TAIL);
    let often = random.once_in(2);
    for index in others {
        if often || random.once_in(20) {
            draft.lo[index] = random.byte();
        }
    }
    draft.lo_reads = false;
    draft
}

/// 207, whatever else is wrong but the length.
pub fn bad_lo_body(random: &mut Random, round: usize) -> CompanyDraft {
    let mut draft = any_good(random);
    match round % 4 {
        0 => resize(random, &mut draft),
        1 => another_kind(random, &mut draft),
        2 => no_tail(random, &mut draft),
        _ => {
            resize(random, &mut draft);
            draft.lo.iter_mut().take(1).for_each(|byte| *byte = b'6');
        }
    }
    draft.lo_is_bad = true;
    draft.lo_reads = false;
    match random.below(4) {
        0 if !draft.details.is_empty() => any_fault(random, &mut draft),
        1 => {
            draft.closing[0] = b'D';
            draft.closing_is_bad = true;
        }
        _ => {}
    }
    draft
}

fn resize(random: &mut Random, draft: &mut CompanyDraft) {
    draft.family = "LO body's length";
    let any = random.below(RECORD);
    let lengths = [0, 1, 75, 87, 93, 93, 95, 95, 96, 188, 250, 940, any];
    let length = *random.pick(&lengths);
    draft.lo = draft.lo.iter().copied().cycle().take(length).collect();
    // Room for the tail, wherever the end is.
    if length > RECORD && random.once_in(2) {
        draft.lo[length - 7..].fill(b'0');
    }
}

fn another_kind(random: &mut Random, draft: &mut CompanyDraft) {
    draft.family = "LO body's type";
    draft.lo[0] = any_other(random, b'5', b"6789014 LDTS\xb5");
}

/// In one position for the most part.
fn no_tail(random: &mut Random, draft: &mut CompanyDraft) {
    draft.family = "LO body's tail";
    let index = random.between(TAIL, RECORD - 1);
    match random.below(8) {
        0 => draft.lo[TAIL..].fill(b' '),
        1 => put(&mut draft.lo, 88, b"0000001"),
        2 => put(&mut draft.lo, 88, b"1000000"),
        3 => put_digits_not_zero(random, &mut draft.lo),
        _ => draft.lo[index] = any_other(random, b'0', b"1 9O/\x00\x10\xb0:"),
    }
}

fn put_digits_not_zero(random: &mut Random, lo: &mut [u8]) {
    let number = random.between(1, 9_999_999);
    put_number(lo, 88, 94, number as u64);
}

/// Details that have the LO body's date all the same: 75 at the first, unless something else comes before.
pub fn lo_of_no_date(random: &mut Random) -> CompanyDraft {
    let mut draft = any_good(random).named("LO body of no date");
    let no_date = any_no_date(random);
    put(&mut draft.lo, 70, &no_date);
    draft.lo_reads = false;
    let due = draft.due();
    let keeps_date = random.once_in(4);
    for detail in &mut draft.details {
        if !keeps_date {
            put(detail, 26, &due);
        }
    }
    if let Some(last) = draft.details.len().checked_sub(1) {
        draft.faults.push((0, 75));
        if random.once_in(3) {
            let place = *random.pick(&[0, 0, last]);
            put_any(random, &mut draft, place);
        }
    }
    draft
}

/// Six bytes that are no AAMMDD.
fn any_no_date(random: &mut Random) -> [u8; 6] {
    let mut bytes = [b' '; 6];
    match random.below(4) {
        0 => bytes.fill_with(|| random.byte()),
        1 => {
            put(&mut bytes, 1, format!("{:06}", any_date(random)).as_bytes());
            bytes[random.below(6)] = no_digit(random);
        }
        2 => bytes.fill(*random.pick(b" 0\x00")),
        _ => put(&mut bytes, 1, pick_no_date(random)),
    }
    // Hardly ever.
    if date(&bytes).is_some() {
        bytes.fill(b'0');
    }
    bytes
}

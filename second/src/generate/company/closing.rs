//! Closing records that do not close.

use super::bytes::{any_other, no_digit};
use super::draft::{CompanyDraft, Detail};
use super::faults::{any_fault, put_fault};
use super::good::{any_good, good_file, with_details};
use crate::generate::draft::{get_number, put, put_number};
use crate::generate::random::Random;

/// First and last position of each number: both counts, what has no money, the sum.
const NUMBERS: [(usize, usize); 4] = [(2, 11), (12, 18), (19, 25), (104, 113)];

pub fn closing_wrong(random: &mut Random) -> CompanyDraft {
    let mut draft = any_good(random);
    break_closing(random, &mut draft);
    draft
}

/// The detail's fault counts, whatever the closing record is.
pub fn fault_and_closing(random: &mut Random, round: usize) -> CompanyDraft {
    let mut draft = with_details(random);
    break_closing(random, &mut draft);
    draft.family = "fault and closing record";
    let last = draft.details.len() - 1;
    match round % 4 {
        0 => any_fault(random, &mut draft),
        _ => put_fault(random, &mut draft, last, round / 4),
    }
    draft
}

/// No detail at all: good where the numbers are zeros.
pub fn closing_alone(random: &mut Random) -> CompanyDraft {
    let mut draft = good_file(random, 0).named("closing record alone");
    match random.below(3) {
        0 => {}
        1 => break_closing(random, &mut draft),
        _ => {
            // A detail where the closing record should be.
            let other = with_details(random);
            draft.closing = other.details[0];
            draft.closing_is_bad = true;
        }
    }
    draft.family = "closing record alone";
    draft
}

/// The record must be a good one before.
pub fn break_closing(random: &mut Random, draft: &mut CompanyDraft) {
    let right = draft.closing;
    while is_same(&draft.closing, &right) {
        draft.closing = right;
        let which = *random.pick(&NUMBERS);
        draft.family = match random.below(8) {
            0 => another_kind(random, draft),
            1 | 2 => another_number(random, draft, which),
            3 => both_counts(random, draft),
            4 => padded(random, draft, which),
            5 => stray(random, draft, which),
            6 => shifted(random, draft, which),
            _ => other_widths(random, draft),
        };
    }
    draft.closing_is_bad = true;
}

fn is_same(one: &Detail, other: &Detail) -> bool {
    let same = |&(from, to): &(usize, usize)| one[from - 1..to] == other[from - 1..to];
    one[0] == other[0] && NUMBERS.iter().all(same)
}

fn another_kind(random: &mut Random, draft: &mut CompanyDraft) -> &'static str {
    draft.closing[0] = any_other(random, b'T', b"DtSU 9\x14\xd4");
    "closing record's type"
}

/// Near the right one, or alike in its last digits or bits.
fn other_number(random: &mut Random, right: u64) -> u64 {
    let any = random.draw() % 10_000_000_000;
    let near = [
        right + 1,
        right + 1,
        right.saturating_sub(1),
        right.saturating_sub(1),
        right * 10,
        right / 10,
        right + 100_000,
        right + 1_000_000,
        right + 10_000_000,
        right + 1_000_000_000,
        right + (1 << 8),
        right + (1 << 16),
        right + (1 << 32),
        0,
        u64::MAX,
        any,
    ];
    *random.pick(&near)
}

fn another_number(
    random: &mut Random,
    draft: &mut CompanyDraft,
    (from, to): (usize, usize),
) -> &'static str {
    let right = get_number(&draft.closing, from, to);
    let number = other_number(random, right);
    put_number(&mut draft.closing, from, to, number);
    "closing record's numbers"
}

/// Alike, and both wrong: the closing record counted too, for one.
fn both_counts(random: &mut Random, draft: &mut CompanyDraft) -> &'static str {
    let number = other_number(random, draft.details.len() as u64);
    put_number(&mut draft.closing, 2, 11, number);
    put_number(&mut draft.closing, 12, 18, number);
    "closing record's counts"
}

/// Blanks in the place of leading zeros, or digits at the left.
fn padded(
    random: &mut Random,
    draft: &mut CompanyDraft,
    (from, to): (usize, usize),
) -> &'static str {
    let right = get_number(&draft.closing, from, to);
    let width = to - from + 1;
    let text = match random.below(5) {
        0 => format!("{right:<width$}"),
        1 => format!("{:width$}", ""),
        2 => format!("{right:+0width$}"),
        3 => format!("{:>width$}", if right == 0 { "-0" } else { "" }),
        _ => format!("{right:>width$}"),
    };
    put(&mut draft.closing, from, &text.as_bytes()[..width]);
    "closing record padded"
}

fn stray(
    random: &mut Random,
    draft: &mut CompanyDraft,
    (from, to): (usize, usize),
) -> &'static str {
    let position = random.position(from, to);
    let (stray, digit) = (no_digit(random), random.digit());
    draft.closing[position - 1] = *random.pick(&[stray, digit, b' ']);
    "closing record's digits"
}

/// The right number one or more positions too far.
fn shifted(
    random: &mut Random,
    draft: &mut CompanyDraft,
    (from, to): (usize, usize),
) -> &'static str {
    let by = random.between(1, 3);
    let number = draft.closing[from - 1..to].to_vec();
    let start = *random.pick(&[from + by, from - 1]);
    draft.closing[from - 1..to].fill(*random.pick(b" 0"));
    put(&mut draft.closing, start.max(2), &number);
    "closing record shifted"
}

/// The counts in seven and ten digits, or one of them over both fields.
fn other_widths(random: &mut Random, draft: &mut CompanyDraft) -> &'static str {
    let details = draft.details.len();
    let text = match random.below(3) {
        0 => format!("{details:07}{details:010}"),
        1 => format!("{details:017}"),
        _ => format!("{details:010}{:07}", 0),
    };
    put(&mut draft.closing, 2, text.as_bytes());
    "closing record's widths"
}

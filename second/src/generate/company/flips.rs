//! One byte of a good file becomes another; what comes of it is known by the field in which it stands.

use super::bytes::any_other;
use super::draft::{CompanyDraft, Detail};
use super::faults::any_place;
use super::good::{any_good, with_details, LARGEST_SUM};
use crate::generate::draft::get_number;
use crate::generate::random::{Random, CHARACTERS};

/// What a changed byte is near to often: digits, their neighbours, blanks, characters and those that are none.
const NEAR: &[u8] = b"0123456789/: 5AZ_@#\x26\"'[\\]^`az~\x00\x1f\x7f\x80\xb0\xff\n";

/// Positions of a detail that are judged, and of its neighbours, in turn; then any position.
pub fn detail_byte(random: &mut Random, round: usize) -> CompanyDraft {
    let mut draft = with_details(random).named("byte of a detail");
    let position = position_for(random, round, &[(1, 2), (25, 116)]);
    let place = any_place(random, &draft);
    let old = draft.details[place][position - 1];
    let byte = any_other(random, old, NEAR);
    draft.details[place][position - 1] = byte;
    match number_for(&draft.details[place], position) {
        Some(number) => draft.faults.push((place, number)),
        None if (104..=113).contains(&position) => settle_or_not(random, &mut draft),
        None => {}
    }
    draft
}

/// Every byte in turn, at any position of a reference or client.
pub fn text_byte(random: &mut Random, round: usize) -> CompanyDraft {
    let mut draft = with_details(random).named("byte of a text");
    let (from, to) = *random.pick(&[(59, 80), (89, 103)]);
    let position = random.position(from, to);
    let place = any_place(random, &draft);
    draft.details[place][position - 1] = round as u8;
    let number = number_for(&draft.details[place], position);
    draft.faults.extend(number.map(|number| (place, number)));
    draft
}

/// An amount that is as good as the old one: the closing record's sum follows or does not.
fn settle_or_not(random: &mut Random, draft: &mut CompanyDraft) {
    if draft.sum() > LARGEST_SUM {
        draft.settle();
        draft.closing_is_bad = true;
    } else if random.once_in(2) {
        draft.settle();
    } else {
        draft.closing_is_bad = true;
    }
}

/// The refusal of a detail that was good but for this byte.
fn number_for(detail: &Detail, position: usize) -> Option<u16> {
    let byte = detail[position - 1];
    let is_text = |from: usize, to: usize| {
        let text = &detail[from - 1..to];
        CHARACTERS.contains(&byte) && text.iter().any(|&byte| byte != b' ')
    };
    let good = match position {
        1 | 26..=33 | 114 | 115 => false,
        34..=36 => byte.is_ascii_digit() && (1..500).contains(&get_number(detail, 34, 36)),
        37..=41 | 45..=58 => byte.is_ascii_digit(),
        59..=80 => is_text(59, 80),
        89..=103 => is_text(89, 103),
        104..=113 => byte.is_ascii_digit() && get_number(detail, 104, 113) > 0,
        _ => true,
    };
    let number = match position {
        26..=33 => 75,
        104..=113 => 19,
        114 | 115 => 203,
        _ => 17,
    };
    (!good).then_some(number)
}

/// Every change of a number or of the type is 17, and no other is anything.
pub fn closing_byte(random: &mut Random, round: usize) -> CompanyDraft {
    let mut draft = any_good(random).named("byte of the closing record");
    let position = position_for(random, round, &[(1, 26), (103, 114)]);
    let old = draft.closing[position - 1];
    draft.closing[position - 1] = any_other(random, old, NEAR);
    draft.closing_is_bad = matches!(position, 1..=25 | 104..=113);
    draft
}

/// Each of these positions in turn, and now and then any.
fn position_for(random: &mut Random, round: usize, spans: &[(usize, usize)]) -> usize {
    if random.once_in(4) {
        return random.between(1, 250);
    }
    let mut positions = spans.iter().flat_map(|&(from, to)| from..=to);
    let count = positions.clone().count();
    positions.nth(round % count).unwrap_or(1)
}

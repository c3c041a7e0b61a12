//! Sums at the end of their field, and beyond it.

use super::draft::CompanyDraft;
use super::good::{good_file, LARGEST_SUM};
use crate::generate::draft::put_number;
use crate::generate::random::Random;

pub fn any_sum(random: &mut Random) -> CompanyDraft {
    let details = *random.pick(&[1, 2, 2, 3, 4, 7, 10, 11, 30]);
    let draft = good_file(random, details);
    match random.below(4) {
        0 => of_sum(draft, LARGEST_SUM).named("largest sum"),
        1 if details > 1 => {
            let sum = LARGEST_SUM + 1 + *random.pick(&[0, 0, 1, 9]);
            beyond(random, of_sum(draft, sum))
        }
        2 if details > 1 => beyond(random, of_largest(draft)),
        _ => {
            let sum = random.between(LARGEST_SUM as usize / 2, LARGEST_SUM as usize);
            of_sum(draft, sum as u64).named("ten digits")
        }
    }
}

/// All amounts the largest.
fn of_largest(mut draft: CompanyDraft) -> CompanyDraft {
    for detail in &mut draft.details {
        put_number(detail, 104, 113, LARGEST_SUM);
    }
    draft.settle();
    draft
}

/// Amounts that add up to this, the last one being what is left.
fn of_sum(mut draft: CompanyDraft, sum: u64) -> CompanyDraft {
    let others = draft.details.len() as u64 - 1;
    let each = sum / (others + 1);
    for detail in &mut draft.details {
        put_number(detail, 104, 113, each);
    }
    let last = draft.details.len() - 1;
    put_number(&mut draft.details[last], 104, 113, sum - others * each);
    draft.settle();
    draft
}

/// No field holds such a sum: not its last ten digits, nor its first ten, nor the largest number.
fn beyond(random: &mut Random, mut draft: CompanyDraft) -> CompanyDraft {
    draft.family = "eleven digits";
    let sum = draft.sum();
    let held = *random.pick(&[sum, sum, sum, sum / 10, LARGEST_SUM, sum % (1 << 32), 0]);
    put_number(&mut draft.closing, 104, 113, held);
    draft.closing_is_bad = true;
    draft
}

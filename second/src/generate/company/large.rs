//! Large company files, the first of each seed.

use super::closing::break_closing;
use super::draft::CompanyDraft;
use super::faults::put_any;
use super::good::{good_file, LARGEST_SUM};
use crate::generate::draft::put_number;
use crate::generate::random::Random;

/// So many cases of each seed are large.
pub const LARGE: u64 = 14;

/// Details of each. 9,996 give a file of 10,000 records; with 65,536 a place needs more than sixteen bits.
const DETAILS: [usize; LARGE as usize] = [
    9_996, 9_997, 9_998, 9_999, 10_000, 10_001, 12_345, 10_000, 9_998, 65_540, 65_537, 1_000,
    4_096, 9_999,
];

pub fn large_file(random: &mut Random, number: u64) -> CompanyDraft {
    let details = DETAILS[number as usize];
    let mut draft = good_file(random, details).named("large");
    draft.over = Some(*random.pick(&[0, 1, 96]));
    match number {
        6 | 10 => {
            put_any(random, &mut draft, details - 1);
            draft.named("large with a fault at the end")
        }
        7 => {
            break_closing(random, &mut draft);
            draft.named("large, not closed")
        }
        8 => {
            draft.over = Some(-1);
            draft
        }
        11 => {
            for detail in &mut draft.details {
                put_number(detail, 104, 113, LARGEST_SUM);
            }
            draft.settle();
            draft.closing_is_bad = true;
            draft.named("large, of thirteen digits")
        }
        _ => draft,
    }
}

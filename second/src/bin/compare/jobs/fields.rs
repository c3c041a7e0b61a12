//! Fields that are looked at in several records.

use second::fields::number;
use std::collections::BTreeSet;
use std::ops::Range;

pub const DESTINATION: Range<usize> = 3..11;
pub const BRANCH: Range<usize> = 7..11;
pub const AMOUNT: Range<usize> = 29..39;
pub const SENDER: Range<usize> = 79..87;

/// All numbers in this field added up.
pub fn total(records: &[&[u8]], field: Range<usize>) -> u64 {
    let fields = records.iter().map(|record| &record[field.clone()]);
    fields.filter_map(number).sum()
}

/// Whether this field is not the same in all records.
pub fn several(records: &[&[u8]], field: Range<usize>) -> bool {
    let different: BTreeSet<&[u8]> = records
        .iter()
        .map(|record| &record[field.clone()])
        .collect();
    different.len() > 1
}

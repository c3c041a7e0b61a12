//! Files of many batches whose counters fall, repeat and lie far apart.

mod faults;
mod pair;

use super::case::{refused, Answer, Case};
use super::damage::put_fault;
use super::draft::Draft;
use super::faults::Kind;
use super::good::{file_of, of_batches, smallest_batches};
use super::numbering::{batches, counter_at, renumber, scatter};
use super::random::Random;
use std::collections::BTreeSet;

pub use faults::put_counter_fault;
use faults::{break_counters, repeated_anywhere};

/// One file in so many is larger than the rest, which is small, so that all goes quickly.
const LARGER: usize = 120;

/// Records of those, the fewest and the most: each up to three times the one before, the larger the rarer.
const SIZES: [(usize, usize); 8] = [
    (40, 120),
    (40, 120),
    (120, 360),
    (120, 360),
    (360, 1_080),
    (360, 1_080),
    (1_080, 3_240),
    (3_240, 10_000),
];

/// What the files of this family are called.
pub const FAMILIES: [&str; 5] = [
    GOOD,
    ONE_FAULT,
    SEVERAL_FAULTS,
    WITH_ANOTHER,
    WITHOUT_COUNTERS,
];

const GOOD: &str = "falling counters";
const ONE_FAULT: &str = "counter";
const SEVERAL_FAULTS: &str = "several counters";
const WITH_ANOTHER: &str = "counter and another fault";
const WITHOUT_COUNTERS: &str = "fault among falling counters";

/// Good files, those with one fault of the counters, and those with another fault besides.
pub fn counter_file(random: &mut Random) -> Case {
    let mut draft = many_batches(random);
    renumber(random, &mut draft);
    match random.below(12) {
        0..=4 => Case::good(GOOD, &draft),
        5..=8 => {
            let expected = put_counter_fault(random, &mut draft);
            Case::of(ONE_FAULT, &draft, expected)
        }
        9 => several_faults(random, draft),
        10 => with_another_fault(random, draft),
        _ => {
            let expected = put_fault(random, &mut draft, &Kind::ALL);
            Case::of(WITHOUT_COUNTERS, &draft, expected)
        }
    }
}

fn many_batches(random: &mut Random) -> Draft {
    if random.once_in(LARGER) {
        let (fewest, most) = *random.pick(&SIZES);
        let records = random.between(fewest, most);
        return of_records(random, records);
    }
    let batches = *random.pick(&[1, 2, 2, 2, 2, 3, 3, 5]);
    let largest = *random.pick(&[1, 2, 2, 5]);
    of_batches(random, batches, largest)
}

/// In batches of some twenty records, or of one individual record.
fn of_records(random: &mut Random, records: usize) -> Draft {
    match random.below(3) {
        0 => smallest_batches(random, (records - 2) / 3),
        _ => file_of(random, records),
    }
}

/// The first individual record that breaks the rule of the counters, told from the paper's sentence.
fn first_broken(draft: &Draft) -> Option<usize> {
    let mut earlier = BTreeSet::new();
    for batch in batches(draft) {
        let mut before = 0;
        for place in batch {
            let counter = counter_at(draft, place);
            if counter <= before || !earlier.insert(counter) {
                return Some(place);
            }
            before = counter;
        }
    }
    None
}

/// Two to four faults of the counters, of which some may undo others.
fn several_faults(random: &mut Random, mut draft: Draft) -> Case {
    for _ in 0..random.between(2, 4) {
        break_counters(random, &mut draft);
    }
    Case::of(SEVERAL_FAULTS, &draft, by_the_rule(&draft))
}

/// The answer to a draft in which nothing but counters can be wrong.
fn by_the_rule(draft: &Draft) -> Answer {
    match first_broken(draft) {
        Some(place) => refused(27, place),
        None => Some(Ok(draft.records.len())),
    }
}

/// Counters far apart, so many of which repeat others; nothing but a look at all of them finds those.
pub fn scatter_and_repeat(random: &mut Random, draft: &mut Draft, repeats: usize) -> Answer {
    scatter(random, draft);
    for _ in 0..repeats {
        repeated_anywhere(random, draft);
    }
    by_the_rule(draft)
}

/// A fault of the counters and one of the table, before or behind it: the first is named.
fn with_another_fault(random: &mut Random, mut draft: Draft) -> Case {
    let one = put_counter_fault(random, &mut draft);
    let other = put_fault(random, &mut draft, &Kind::ALL);
    let expected = earlier_of(one, other);
    Case::of(WITH_ANOTHER, &draft, expected)
}

/// Not known where both are faults of one record.
fn earlier_of(one: Answer, other: Answer) -> Answer {
    let (first, second) = (one?.err()?, other?.err()?);
    match first.place.cmp(&second.place) {
        std::cmp::Ordering::Less => one,
        std::cmp::Ordering::Greater => other,
        std::cmp::Ordering::Equal => None,
    }
}

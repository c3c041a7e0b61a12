//! Damaged copies of good files, for sessions that stay as they are.

use super::case::{refused, Answer};
use super::counters::put_counter_fault;
use super::damage::put_fault;
use super::draft::Draft;
use super::faults::Kind;
use super::random::{Random, CHARACTERS};
use super::structure::disorder;

/// A copy with some fault that leaves the session as it is.
pub fn damaged_copy(random: &mut Random, good: &Draft) -> (&'static str, Vec<u8>, Answer) {
    loop {
        let mut draft = good.clone();
        let with_batches = draft.records.len() > 2;
        let (kind, answer) = match random.below(8) {
            0..=2 if with_batches => ("fault", put_fault(random, &mut draft, &Kind::ALL)),
            3 if with_batches => ("counter", put_counter_fault(random, &mut draft)),
            0..=5 => disorder(random, &mut draft),
            6 => return flipped_copy(random, good),
            _ => {
                let file = good.bytes();
                return ("cut", file[..file.len() - 1].to_vec(), refused(201, 0));
            }
        };
        if draft.rules == good.rules {
            return (kind, draft.bytes(), answer);
        }
    }
}

/// Any byte of the file becomes another character; in a free position it is no fault.
fn flipped_copy(random: &mut Random, good: &Draft) -> (&'static str, Vec<u8>, Answer) {
    let mut file = good.bytes();
    let at = random.below(file.len());
    file[at] = *random.pick(CHARACTERS);
    ("flipped", file, None)
}

//! The counters of a draft, batch by batch, and other good ones in their place.

mod shapes;

use super::draft::{get_number, put_number, Draft};
use super::random::Random;
use shapes::{far_apart, Shape, SHAPES};

pub use shapes::HIGHEST;

/// The places of the individual records, batch by batch.
pub fn batches(draft: &Draft) -> Vec<Vec<usize>> {
    let mut batches: Vec<Vec<usize>> = Vec::new();
    for (place, record) in draft.records.iter().enumerate() {
        match (record[0], batches.last_mut()) {
            (b'5', _) => batches.push(Vec::new()),
            (b'6', Some(batch)) => batch.push(place),
            _ => {}
        }
    }
    batches
}

pub fn counter_at(draft: &Draft, place: usize) -> u64 {
    get_number(&draft.records[place], 88, 94)
}

/// An individual record's counter, and that of the additional behind it.
pub fn put_counter(draft: &mut Draft, place: usize, counter: u64) {
    put_number(&mut draft.records[place], 88, 94, counter);
    let next = draft.records.get_mut(place + 1);
    if let Some(additional) = next.filter(|record| record[0] == b'7') {
        put_number(additional, 88, 94, counter);
    }
}

/// The counters of a batch, from its first individual record on; where they end, the rest stays.
pub fn put_counters(draft: &mut Draft, batch: &[usize], counters: &[u64]) {
    for (&place, &counter) in batch.iter().zip(counters) {
        put_counter(draft, place, counter);
    }
}

/// Gives a good draft other good counters: ascending in each batch, and all of them different.
pub fn renumber(random: &mut Random, draft: &mut Draft) {
    let shape = *random.pick(&SHAPES);
    renumber_by(random, draft, shape);
}

/// That of one draft in three, so that the others still ascend.
pub fn renumber_some(random: &mut Random, draft: &mut Draft) {
    if random.once_in(3) {
        renumber(random, draft);
    }
}

/// Counters anywhere, mostly far apart from each other.
pub fn scatter(random: &mut Random, draft: &mut Draft) {
    renumber_by(random, draft, far_apart);
}

fn renumber_by(random: &mut Random, draft: &mut Draft, shape: Shape) {
    let batches = batches(draft);
    let sizes: Vec<usize> = batches.iter().map(Vec::len).collect();
    let mut counters = shape(random, &sizes);
    let mut rest = counters.as_mut_slice();
    for batch in &batches {
        let own = rest.split_off_mut(..batch.len()).unwrap_or_default();
        own.sort_unstable();
        put_counters(draft, batch, own);
    }
}

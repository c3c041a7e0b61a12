//! Two individual records of a file, an earlier and a later one.

use crate::generate::draft::Draft;
use crate::generate::numbering::{batches, counter_at};
use crate::generate::random::Random;

#[derive(Clone, Copy)]
pub struct Pair {
    pub earlier: usize,
    pub later: usize,
}

/// At either end of the file, side by side, or anywhere.
pub fn any_pair(random: &mut Random, draft: &Draft) -> Option<Pair> {
    let places: Vec<usize> = batches(draft).concat();
    let last = places.len().checked_sub(1).filter(|&last| last > 0)?;
    let at = random.between(1, last);
    let (earlier, later) = match random.below(6) {
        0 => (0, last),
        1 => (0, at),
        2 => (random.below(last), last),
        3 => (last - 1, last),
        4 => (at - 1, at),
        _ => (random.below(at), at),
    };
    Some(Pair {
        earlier: places[earlier],
        later: places[later],
    })
}

/// Two batches, the earlier first, of different senders where that is asked for.
pub fn two_batches(random: &mut Random, draft: &Draft, apart: bool) -> Option<[Vec<usize>; 2]> {
    let batches = batches(draft);
    let filled = |batch: &Vec<usize>| !batch.is_empty();
    let batches: Vec<Vec<usize>> = batches.into_iter().filter(filled).collect();
    let sender = |batch: &[usize]| draft.records[batch[0]][79..87].to_vec();
    let second = random.position(2, batches.len().max(2)) - 1;
    let later = batches.get(second)?;
    let mut earlier: Vec<&Vec<usize>> = batches[..second].iter().collect();
    if apart {
        earlier.retain(|batch| sender(batch) != sender(later));
    }
    if earlier.is_empty() {
        return None;
    }
    // The first, the one right before, or any.
    let index = random.position(1, earlier.len()) - 1;
    Some([earlier[index].clone(), later.clone()])
}

/// A batch of at least two individual records, and the index of one that is not its first.
pub fn within_batch(random: &mut Random, draft: &Draft) -> Option<(Vec<usize>, usize)> {
    let mut batches = batches(draft);
    batches.retain(|batch| batch.len() > 1);
    if batches.is_empty() {
        return None;
    }
    let batch = random.pick(&batches).clone();
    let index = random.position(2, batch.len()) - 1;
    Some((batch, index))
}

/// All counters of a draft.
pub fn all_counters(draft: &Draft) -> Vec<u64> {
    let places = batches(draft).concat();
    places
        .into_iter()
        .map(|place| counter_at(draft, place))
        .collect()
}

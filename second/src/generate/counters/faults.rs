//! Ways of breaking the rule of the counters and no other; and of breaking another in the same record.

use super::pair::{all_counters, any_pair, two_batches, within_batch, Pair};
use crate::generate::case::{refused, Answer};
use crate::generate::draft::{put, Draft};
use crate::generate::numbering::{batches, counter_at, put_counter, put_counters, HIGHEST};
use crate::generate::random::Random;

/// The record that is then refused by 27; none where the draft has no room for it.
type Way = fn(&mut Random, &mut Draft) -> Option<usize>;

const WAYS: [Way; 13] = [
    repeated,
    repeated,
    quietly_repeated,
    quietly_repeated,
    repeated_anywhere,
    repeated_at_another_sender,
    repeated_at_another_sender,
    restarted,
    restarted,
    zero,
    zero_in_later_batch,
    falling,
    from_the_end,
];

/// One fault in a draft whose counters are good; where there is no individual record it stays good.
pub fn put_counter_fault(random: &mut Random, draft: &mut Draft) -> Answer {
    match break_counters(random, draft) {
        Some(place) => refused(also_spoiled(random, draft, place), place),
        None => Some(Ok(draft.records.len())),
    }
}

/// The record that is then refused by 27; none where there is no individual record.
pub fn break_counters(random: &mut Random, draft: &mut Draft) -> Option<usize> {
    if batches(draft).concat().is_empty() {
        return None;
    }
    loop {
        let way = *random.pick(&WAYS);
        let place = way(random, draft);
        if place.is_some() {
            return place;
        }
    }
}

/// Another fault of the same record comes first, whichever it is: the counter is judged last.
fn also_spoiled(random: &mut Random, draft: &mut Draft, place: usize) -> u16 {
    const OTHERS: [(usize, &[u8], u16); 8] = [
        (2, b"33", 17),
        (12, b"1", 77),
        (20, b" ", 78),
        (30, b"0000000000", 19),
        (40, b"               ", 79),
        (77, b"02", 87),
        (84, b" ", 17),
        (91, b"A", 17),
    ];
    let record = &mut draft.records[place];
    match random.below(12) {
        // The sender's field is another's: 27 all the same.
        0 => {
            let index = random.between(80, 87) - 1;
            let old = record[index];
            record[index] = random.character_with(|byte| byte.is_ascii_digit() && byte != old);
        }
        1 => {
            let (from, text, number) = *random.pick(&OTHERS);
            put(record, from, text);
            return number;
        }
        _ => {}
    }
    27
}

/// The later of two takes the counter of the earlier.
fn repeated(random: &mut Random, draft: &mut Draft) -> Option<usize> {
    let Pair { earlier, later } = any_pair(random, draft)?;
    let counter = counter_at(draft, earlier);
    put_counter(draft, later, counter);
    Some(later)
}

/// A batch gets one counter of an earlier batch, and still ascends.
fn quietly_repeated(random: &mut Random, draft: &mut Draft) -> Option<usize> {
    let [earlier, later] = two_batches(random, draft, false)?;
    repeat_in_order(random, draft, &earlier, &later)
}

/// The same, with all pairs of batches alike, so that in long files neither is an end of it.
pub fn repeated_anywhere(random: &mut Random, draft: &mut Draft) -> Option<usize> {
    let batches = batches(draft);
    let last = batches.len().checked_sub(1).filter(|&last| last > 0)?;
    let later = random.between(1, last);
    let earlier = random.below(later);
    repeat_in_order(random, draft, &batches[earlier], &batches[later])
}

fn repeated_at_another_sender(random: &mut Random, draft: &mut Draft) -> Option<usize> {
    let [earlier, later] = two_batches(random, draft, true)?;
    repeat_in_order(random, draft, &earlier, &later)
}

fn repeat_in_order(
    random: &mut Random,
    draft: &mut Draft,
    earlier: &[usize],
    later: &[usize],
) -> Option<usize> {
    let repeated = earlier[random.position(1, earlier.len()) - 1];
    let repeated = counter_at(draft, repeated);
    let mut counters: Vec<u64> = later
        .iter()
        .map(|&place| counter_at(draft, place))
        .collect();
    let replaced = random.below(counters.len());
    counters[replaced] = repeated;
    counters.sort_unstable();
    put_counters(draft, later, &counters);
    let index = counters.iter().position(|&counter| counter == repeated)?;
    Some(later[index])
}

/// A batch begins anew with the counters of an earlier one.
fn restarted(random: &mut Random, draft: &mut Draft) -> Option<usize> {
    let [earlier, later] = two_batches(random, draft, false)?;
    let counters: Vec<u64> = earlier
        .iter()
        .map(|&place| counter_at(draft, place))
        .collect();
    put_counters(draft, &later, &counters);
    Some(later[0])
}

/// Nothing exceeds 0 by being 0, wherever it stands.
fn zero(random: &mut Random, draft: &mut Draft) -> Option<usize> {
    let places = batches(draft).concat();
    let place = places[random.position(1, places.len()) - 1];
    put_counter(draft, place, 0);
    Some(place)
}

fn zero_in_later_batch(random: &mut Random, draft: &mut Draft) -> Option<usize> {
    let [_, later] = two_batches(random, draft, false)?;
    put_counter(draft, later[0], 0);
    Some(later[0])
}

/// A counter that stands nowhere else, below that of the record before in its batch, often by one.
fn falling(random: &mut Random, draft: &mut Draft) -> Option<usize> {
    let (batch, index) = within_batch(random, draft)?;
    let before = counter_at(draft, batch[index - 1]);
    let below = random.below(before as usize) as u64;
    let counter = *random.pick(&[before.saturating_sub(1), below]);
    let unused = !all_counters(draft).contains(&counter);
    unused.then(|| {
        put_counter(draft, batch[index], counter);
        batch[index]
    })
}

/// The highest number there is, and then 1 in the same batch.
fn from_the_end(random: &mut Random, draft: &mut Draft) -> Option<usize> {
    let (batch, index) = within_batch(random, draft)?;
    let highest = batch[index - 1];
    let used = counter_at(draft, highest) != HIGHEST && all_counters(draft).contains(&HIGHEST);
    (!used).then(|| {
        put_counter(draft, highest, HIGHEST);
        put_counter(draft, batch[index], 1);
        batch[index]
    })
}

//! Records dropped, doubled, swapped, surplus, and of every type in every place.

use super::case::{accepted, refused, Answer, Case};
use super::draft::{Draft, Record};
use super::good::{any_file, file_with_batches};
use super::numbering::renumber_some;
use super::random::Random;
use crate::reading::RECORD;

pub fn damaged_structure(random: &mut Random) -> Case {
    let mut draft = if random.once_in(4) {
        any_file(random)
    } else {
        file_with_batches(random)
    };
    renumber_some(random, &mut draft);
    let (family, expected) = disorder(random, &mut draft);
    Case::of(family, &draft, expected)
}

/// The records of a good draft in another order, or others.
pub fn disorder(random: &mut Random, draft: &mut Draft) -> (&'static str, Answer) {
    match random.below(11) {
        0 => ("cut after a record", cut(random, draft)),
        1 => ("record dropped", drop_record(random, draft)),
        2 => ("record doubled", double(random, draft)),
        3 => ("records swapped", swap(random, draft)),
        4 => ("surplus after the 9", add_after_end(random, draft)),
        5 | 6 => ("another type", change_type(random, draft)),
        7 => ("record inserted", insert(random, draft)),
        8 => ("additional missing", lose_additional(random, draft)),
        9 => ("additional surplus", repeat_additional(random, draft)),
        _ => ("empty batch", insert_empty_batch(random, draft)),
    }
}

/// The number of a record that may not stand behind `before`, told from the paper's sentence.
fn misplaced(before: Option<&Record>, kind: u8) -> Option<u16> {
    let owing = before.is_some_and(|record| record[0] == b'6' && record[78] == b'1');
    let (allowed, additional): (&[u8], u16) = match before.map(|record| record[0]) {
        None => (b"1", 17),
        Some(b'1' | b'8') => (b"59", 17),
        Some(b'5') => (b"6", 17),
        Some(b'6') if owing => (b"7", 25),
        Some(b'6' | b'7') => (b"68", 25),
        _ => (b"", 17),
    };
    match kind {
        kind if allowed.contains(&kind) => None,
        b'7' => Some(additional),
        _ if owing => Some(25),
        _ => Some(17),
    }
}

/// What is expected when the record at `place` is the first that differs.
fn expect_misplaced(draft: &Draft, place: usize) -> Answer {
    let before = place.checked_sub(1).map(|before| &draft.records[before]);
    match draft.records.get(place) {
        Some(record) => refused(misplaced(before, record[0])?, place),
        None => refused(17, place),
    }
}

fn settle_mostly(random: &mut Random, draft: &mut Draft) {
    if !random.once_in(3) {
        draft.settle();
    }
}

fn any_place(random: &mut Random, draft: &Draft) -> usize {
    random.below(draft.records.len())
}

fn cut(random: &mut Random, draft: &mut Draft) -> Answer {
    let left = random.between(1, draft.records.len() - 1);
    draft.records.truncate(left);
    if left < 2 {
        refused(201, 0)
    } else {
        refused(17, left)
    }
}

fn drop_record(random: &mut Random, draft: &mut Draft) -> Answer {
    let place = any_place(random, draft);
    draft.records.remove(place);
    settle_mostly(random, draft);
    if draft.records.len() < 2 {
        return refused(201, 0);
    }
    expect_misplaced(draft, place)
}

fn double(random: &mut Random, draft: &mut Draft) -> Answer {
    let place = any_place(random, draft);
    draft.records.insert(place, draft.records[place]);
    settle_mostly(random, draft);
    if draft.records[place][0] == b'9' {
        // The first of the two 9 was at its own place when the file was settled.
        return refused(17, place + 1);
    }
    expect_misplaced(draft, place + 1)
}

fn swap(random: &mut Random, draft: &mut Draft) -> Answer {
    let first = any_place(random, draft);
    let second = if random.once_in(2) {
        (first + 1) % draft.records.len()
    } else {
        any_place(random, draft)
    };
    draft.records.swap(first, second);
    settle_mostly(random, draft);
    expect_misplaced(draft, first.min(second))
}

fn add_after_end(random: &mut Random, draft: &mut Draft) -> Answer {
    let end = draft.records.len();
    for _ in 0..random.between(1, 12) {
        let copied = draft.records[any_place(random, draft)];
        let drawn = std::array::from_fn(|_| random.character());
        let surplus = *random.pick(&[copied, copied, [b' '; RECORD], [b'9'; RECORD], drawn]);
        draft.records.push(surplus);
    }
    refused(17, end)
}

fn any_type(random: &mut Random) -> u8 {
    let drawn = random.character();
    let digit = random.digit();
    *random.pick(&[b'1', b'5', b'6', b'7', b'8', b'9', b' ', digit, drawn])
}

fn change_type(random: &mut Random, draft: &mut Draft) -> Answer {
    let place = any_place(random, draft);
    draft.records[place][0] = any_type(random);
    settle_mostly(random, draft);
    expect_misplaced(draft, place)
}

fn insert(random: &mut Random, draft: &mut Draft) -> Answer {
    let place = random.between(0, draft.records.len());
    let mut record = draft.records[any_place(random, draft)];
    if random.once_in(2) {
        record[0] = any_type(random);
    }
    draft.records.insert(place, record);
    settle_mostly(random, draft);
    if place + 1 == draft.records.len() {
        return refused(17, place);
    }
    expect_misplaced(draft, place)
}

fn lose_additional(random: &mut Random, draft: &mut Draft) -> Answer {
    let places = draft.places(|record| record[0] == b'7');
    if places.is_empty() {
        return accepted(draft);
    }
    let place = *random.pick(&places);
    draft.records.remove(place);
    settle_mostly(random, draft);
    refused(25, place)
}

/// A second additional, or one behind an individual record without.
fn repeat_additional(random: &mut Random, draft: &mut Draft) -> Answer {
    let places =
        draft.places(|record| record[0] == b'7' || (record[0] == b'6' && record[78] == b'0'));
    if places.is_empty() {
        return accepted(draft);
    }
    let place = *random.pick(&places);
    let mut record = draft.records[place];
    if record[0] == b'6' {
        record[0] = b'7';
        record[1..3].copy_from_slice(b"05");
        record[83..87].copy_from_slice(b"0001");
    }
    draft.records.insert(place + 1, record);
    settle_mostly(random, draft);
    refused(25, place + 1)
}

/// A 5, then an 8, where a batch may stand.
fn insert_empty_batch(random: &mut Random, draft: &mut Draft) -> Answer {
    let ends = draft.places(|record| matches!(record[0], b'1' | b'8'));
    let headers = draft.places(|record| record[0] == b'5');
    let controls = draft.places(|record| record[0] == b'8');
    if headers.is_empty() {
        return accepted(draft);
    }
    let place = *random.pick(&ends) + 1;
    let header = draft.records[*random.pick(&headers)];
    let control = draft.records[*random.pick(&controls)];
    draft.records.splice(place..place, [header, control]);
    settle_mostly(random, draft);
    refused(17, place + 1)
}

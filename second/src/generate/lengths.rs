//! Lengths that no file has, and bytes that are no file.

use super::case::{accepted, refused, Answer, Case};
use super::draft::Draft;
use super::faults::Kind;
use super::good::{any_file, file_with_batches};
use super::numbering::renumber_some;
use super::random::{Random, CHARACTERS};
use crate::reading::RECORD;

pub fn damaged_length(random: &mut Random) -> Case {
    let draft = any_file(random);
    damaged_length_of(random, &draft)
}

/// Of a draft that is good.
pub fn damaged_length_of(random: &mut Random, draft: &Draft) -> Case {
    let mut file = draft.bytes();
    let whole = file.len();
    let mut expected = None;
    match random.below(5) {
        0 => {
            let small = random.below(2_000);
            let length = *random.pick(&[0, 1, 93, 94, 95, 187, 188, 189, 281, 282, 283, small]);
            file = file.iter().copied().cycle().take(length).collect();
        }
        1 => {
            let more = *random.pick(&[1, 2, 93, 94, 95, 188]);
            file.extend((0..more).map(|_| random.character()));
            // Whole records behind the 9 are judged as records.
            expected = refused(17, whole / RECORD);
        }
        2 => {
            let less = *random.pick(&[1, 2, 92, 93, 95, 187]);
            file.truncate(whole - less.min(whole));
        }
        3 => file = (0..random.below(1_000)).map(|_| random.byte()).collect(),
        _ => {
            file = (0..random.between(2, 8) * RECORD)
                .map(|_| random.byte())
                .collect();
            file[0] = *random.pick(b"1115679 ");
        }
    }
    let expected = if is_length(file.len()) {
        expected
    } else {
        refused(201, 0)
    };
    Case::with("length", draft.rules.clone(), file, expected)
}

fn is_length(length: usize) -> bool {
    (2..=10_000).any(|records| records * RECORD == length)
}

/// One byte of a good file becomes this value; the run tells the kind of its record and its position there.
pub fn flipped(random: &mut Random, run: usize, value: u8) -> Case {
    let (kind, position) = (
        Kind::ALL[run % Kind::ALL.len()],
        run / Kind::ALL.len() % RECORD,
    );
    let (draft, places) = file_holding(random, kind);
    flip(&draft, *random.pick(&places) * RECORD + position, value)
}

/// This byte of a good draft becomes this value.
pub fn flip(draft: &Draft, at: usize, value: u8) -> Case {
    let mut file = draft.bytes();
    let expected: Answer = if file[at] == value {
        accepted(draft)
    } else if !CHARACTERS.contains(&value) {
        refused(17, at / RECORD)
    } else {
        None
    };
    file[at] = value;
    Case::with("byte flipped", draft.rules.clone(), file, expected)
}

/// A good file with records of this kind, and their places.
fn file_holding(random: &mut Random, kind: Kind) -> (Draft, Vec<usize>) {
    loop {
        let mut draft = file_with_batches(random);
        renumber_some(random, &mut draft);
        let places = draft.places(|record| kind.is(record));
        if !places.is_empty() {
            return (draft, places);
        }
    }
}

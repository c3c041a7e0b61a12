//! Strippings: a session, a file, and a buffer full of something.

use super::addressed::{fill_free_positions, renumber_batches};
use super::built::{make_as_built, number_individuals, stripped_length, stripped_of};
use super::case::Case;
use super::copies::damaged_copy;
use super::draft::{put_number, Draft};
use super::files::{any_generated, generate};
use super::good::{any_file, file_with_batches};
use super::large;
use super::lending::{written_after, Input, Lending};
use super::numbering::{renumber, renumber_some};
use super::opening::some_opening;
use super::random::{Random, STRIPS};
use super::room::any_room;
use crate::tray::TRAY_RECORD;
use crate::{strip, Refusal, Rules, Session};

pub struct Stripping {
    pub file: Vec<u8>,
}

pub type StripCase = Lending<Stripping>;

pub fn generate_strip(seed: u64, number: u64) -> StripCase {
    let mut random = Random::new(seed, STRIPS + number);
    let case = source(&mut random, seed, number);
    let large = number < large::LARGE;
    let opened = some_opening(&mut random, &case.rules, !large);
    let length = stripped_length(&case.file);
    let room = match number {
        // The large files get enough room, but for one.
        2 => length - 1,
        _ if large => length + *random.pick(&[0, 1, TRAY_RECORD]),
        _ => any_room(&mut random, length),
    };
    let reading = case.expected.filter(|_| opened.answer.is_ok());
    let meant = written_after(reading, length, room);
    let input = Stripping { file: case.file };
    Lending::new(&mut random, case.family, opened, input, room, meant)
}

fn source(random: &mut Random, seed: u64, number: u64) -> Case {
    if number < large::LARGE {
        return generate(seed, number);
    }
    match number % 24 {
        0..=2 => good(random, "good", |_, _| {}),
        3 => good(random, "as built but for its counters", fallen_counters),
        4 => good(random, "free positions filled", fill_free_positions),
        5 => good(random, "batches renumbered", renumber_batches),
        6..=9 => good(random, "as built", |_, draft| make_as_built(draft)),
        10 | 11 => good(random, "as built but for one batch number", other_batch),
        12 | 13 => good(random, "as built but for one counter", other_counter),
        14 | 15 => good(random, "as built but for a free position", filled_once),
        16..=18 => damaged(random),
        _ => any_generated(random, seed),
    }
}

fn good(
    random: &mut Random,
    family: &'static str,
    change: impl Fn(&mut Random, &mut Draft),
) -> Case {
    let mut draft = if random.once_in(2) {
        any_file(random)
    } else {
        file_with_batches(random)
    };
    renumber_some(random, &mut draft);
    change(random, &mut draft);
    Case::good(family, &draft)
}

fn damaged(random: &mut Random) -> Case {
    let mut draft = file_with_batches(random);
    renumber_some(random, &mut draft);
    let (family, file, reading) = damaged_copy(random, &draft);
    Case::with(family, draft.rules, file, reading)
}

/// The last number, so that no other follows from it, or any.
fn other_batch(random: &mut Random, draft: &mut Draft) {
    make_as_built(draft);
    let headers = draft.places(|record| record[0] == b'5');
    if headers.is_empty() {
        return;
    }
    let index = random.position(1, headers.len());
    let number = index as u64;
    let other = *random.pick(&[0, number + 1, number + 10, number + 1_000_000]);
    put_number(&mut draft.records[headers[index - 1]], 88, 94, other);
    draft.settle();
}

/// From one individual record on the counters are higher than they need be.
fn other_counter(random: &mut Random, draft: &mut Draft) {
    make_as_built(draft);
    let individuals = draft.places(|record| record[0] == b'6');
    if individuals.is_empty() {
        return;
    }
    let before = random.position(1, individuals.len()) - 1;
    let more = *random.pick(&[1, 1, 9, 1_000_000]);
    let rest = &mut draft.records[individuals[before]..];
    number_individuals(rest, before as u64 + more);
}

/// Counters that fall, or begin elsewhere, or are those of building after all.
fn fallen_counters(random: &mut Random, draft: &mut Draft) {
    make_as_built(draft);
    renumber(random, draft);
}

/// One free position of one control is not blank.
fn filled_once(random: &mut Random, draft: &mut Draft) {
    make_as_built(draft);
    let controls = draft.places(|record| b"89".contains(&record[0]));
    let record = &mut draft.records[*random.pick(&controls)];
    let position = match record[0] {
        b'8' => random.position(55, 79),
        _ => random.position(56, 94),
    };
    record[position - 1] = random.character_with(|byte| byte != b' ');
}

impl Input for Stripping {
    fn run(&self, session: &Session, lent: &mut [u8]) -> Result<usize, Refusal> {
        strip(session.rules(), &self.file, lent)
    }

    fn needed(&self, _: &Rules) -> usize {
        stripped_length(&self.file)
    }

    fn output(&self, _: &Rules) -> Vec<u8> {
        stripped_of(&self.file)
    }
}

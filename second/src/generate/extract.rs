//! Extractions: a session, a file, an entity, and a buffer full of something.

use super::addressed::{
    addressed_file, empty_file, fill_free_positions, largest_sums, largest_totals,
    renumber_batches, shared_file, Addressed, Share, ALL, ONE, SEVERAL,
};
use super::asked::{any_of, named, no_entity, on_roster};
use super::case::{refused, Answer, Case};
use super::copies::damaged_copy;
use super::files::{any_generated, generate};
use super::large;
use super::lending::{written_after, Input, Lending};
use super::meant::{extract_length, extract_of};
use super::numbering::renumber_some;
use super::opening::some_opening;
use super::random::{Random, EXTRACTS};
use super::room::any_size;
use crate::reading::RECORD;
use crate::{Refusal, Rules, Session};

pub struct Extraction {
    pub entity: u64,
    pub file: Vec<u8>,
}

pub type ExtractCase = Lending<Extraction>;

/// A file, before anything is asked of it.
struct Source {
    case: Case,
    /// Whom the file was made for, where it was made for one.
    entity: Option<usize>,
}

/// How many extractions from files of up to 10,000 records a run holds; they come first.
const LARGE: u64 = large::LARGE + 12;
const FULL: usize = 10_000;

pub fn generate_extract(seed: u64, number: u64) -> ExtractCase {
    let mut random = Random::new(seed, EXTRACTS + number);
    let source = source(&mut random, seed, number);
    let opened = some_opening(&mut random, &source.case.rules, number >= LARGE);
    // The few large files made for somebody are surely extracted for them, into enough room or one byte less.
    let sure = source.entity.filter(|_| number < LARGE);
    let entity = match sure {
        Some(entity) => entity as u64,
        None => any_entity(&mut random, &source, &opened.rules),
    };
    let case = source.case;
    let length = extract_length(&opened.rules, entity, &case.file);
    let room = match sure {
        Some(_) if number >= LARGE - 2 => length - 1,
        Some(_) => length + *random.pick(&[0, 1, RECORD]),
        None => any_size(&mut random, length),
    };
    let meant = meant(&opened.rules, entity, case.expected, length, room);
    let file = case.file;
    let input = Extraction { entity, file };
    Lending::new(&mut random, case.family, opened, input, room, meant)
}

/// 208, then the reading's refusals, then 206.
fn meant(rules: &Rules, entity: u64, reading: Answer, length: usize, room: usize) -> Answer {
    if !(1..=499).contains(&entity) || !rules.roster[entity as usize] {
        return refused(208, 0);
    }
    written_after(reading, length, room)
}

fn source(random: &mut Random, seed: u64, number: u64) -> Source {
    if number < large::LARGE {
        return for_nobody(generate(seed, number));
    }
    if number < LARGE {
        return large_source(random, number - large::LARGE);
    }
    match number % 24 {
        0..=7 => good("addressed", addressed_file(random)),
        8..=10 => good_and_filled(random),
        11 => good("header and control", empty_file(random)),
        12..=14 => damaged(random),
        15..=21 => for_nobody(any_generated(random, seed)),
        22 if random.once_in(3) => good("sums of twelve digits", largest_sums(random)),
        23 if random.once_in(4) => good("totals of eleven digits", largest_totals(random)),
        _ => good("addressed", addressed_file(random)),
    }
}

fn good(family: &'static str, addressed: Addressed) -> Source {
    Source {
        case: Case::good(family, &addressed.draft),
        entity: Some(addressed.entity),
    }
}

/// A file of the readings.
fn for_nobody(case: Case) -> Source {
    Source { case, entity: None }
}

fn good_and_filled(random: &mut Random) -> Source {
    let mut addressed = addressed_file(random);
    fill_free_positions(random, &mut addressed.draft);
    renumber_batches(random, &mut addressed.draft);
    good("free positions filled", addressed)
}

fn damaged(random: &mut Random) -> Source {
    let Addressed { draft, entity } = addressed_file(random);
    let (family, file, reading) = damaged_copy(random, &draft);
    Source {
        case: Case::with(family, draft.rules, file, reading),
        entity: Some(entity),
    }
}

fn large_source(random: &mut Random, number: u64) -> Source {
    let (each, share) = match number {
        1 | 2 => (SEVERAL, Share::Half),
        3 => (SEVERAL, Share::OneIn(1_000)),
        4 => (SEVERAL, Share::None),
        5 => (ONE, Share::All),
        6 | 10 => (ONE, Share::Half),
        7 => (ALL, Share::All),
        8 => (ALL, Share::Half),
        9 => (ALL, Share::OneIn(1_000)),
        _ => (SEVERAL, Share::All),
    };
    let mut addressed = shared_file(random, FULL, each, share);
    renumber_some(random, &mut addressed.draft);
    good("10,000 records", addressed)
}

/// Those whom the file names for the most part; then others, and numbers of nobody.
fn any_entity(random: &mut Random, source: &Source, rules: &Rules) -> u64 {
    let file = &source.case.file;
    let addressee = any_of(random, &named(file, b'6'));
    let someone = source.entity.map_or(addressee, |entity| entity as u64);
    match random.below(20) {
        0..=10 => someone,
        11 | 12 => addressee,
        13 => any_of(random, &named(file, b'5')),
        14 => any_of(random, &named(file, b'1')),
        15 | 16 => on_roster(random, rules, true),
        17 => on_roster(random, rules, false),
        _ => no_entity(random, someone),
    }
}

impl Input for Extraction {
    fn run(&self, session: &Session, lent: &mut [u8]) -> Result<usize, Refusal> {
        session.extract(self.entity, &self.file, lent)
    }

    fn needed(&self, rules: &Rules) -> usize {
        extract_length(rules, self.entity, &self.file)
    }

    fn output(&self, rules: &Rules) -> Vec<u8> {
        extract_of(rules, self.entity, &self.file)
    }
}

impl ExtractCase {
    /// The same extraction for somebody else, into a buffer that takes any extract of the file.
    pub fn for_entity(&self, entity: u64) -> ExtractCase {
        let file = self.input.file.clone();
        Lending {
            family: self.family,
            opening: self.opening.clone(),
            rules: self.rules.clone(),
            buffer: file.iter().map(|byte| !byte).collect(),
            input: Extraction { entity, file },
            meant: None,
        }
    }
}

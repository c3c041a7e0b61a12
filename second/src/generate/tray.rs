//! Buildings: a session, a header body, a tray, and a buffer full of something.

mod draft;
mod form;
mod order;
mod size;

use super::addressed::{fill_free_positions, largest_sums, largest_totals};
use super::built::{build_meant, built_length, built_of, LONGEST};
use super::case::{refused, Answer};
use super::damage::{bad_byte, put_body_fault};
use super::faults::Kind;
use super::files::any_generated;
use super::good::{any_file, file_with_batches};
use super::lending::{Input, Lending};
use super::opening::some_opening;
use super::random::{Random, CHARACTERS, TRAYS};
use super::room::any_room;
use super::session::damaged_rules;
use super::sums::amount_sums;
use crate::reading::RECORD;
use crate::tray::TRAY_RECORD;
use crate::{build, Refusal, Rules, Session};
use draft::{tray_records, TrayDraft};
use form::{any_record, break_kind, break_mark, break_record, break_tail, lengthen, resize_header};

pub struct Building {
    pub header: Vec<u8>,
    pub tray: Vec<u8>,
    /// What the reading says of the built file, or would but for other refusals, where the generator knows it by itself.
    pub reading: Answer,
}

/// The answer is always known.
pub type TrayCase = Lending<Building>;

pub fn generate_tray(seed: u64, number: u64) -> TrayCase {
    let mut random = Random::new(seed, TRAYS + number);
    let large = number < size::LARGE;
    let draft = if large {
        size::large_tray(&mut random, number)
    } else {
        any_tray(&mut random, seed, number - size::LARGE)
    };
    let opened = some_opening(&mut random, &draft.rules, !large);
    let tray = draft.bytes();
    let length = built_length(&tray);
    let room = match number {
        // The few files of 10,000 records get enough room, or one byte less.
        1 => length - 1,
        _ if large && length <= LONGEST => length + *random.pick(&[0, 1, RECORD]),
        _ => any_room(&mut random, length),
    };
    let meant = build_meant(&opened.rules, &draft.header, &tray, room);
    let input = Building {
        header: draft.header,
        tray,
        reading: draft.reading.filter(|_| opened.answer.is_ok()),
    };
    Lending::new(&mut random, draft.family, opened, input, room, Some(meant))
}

/// Each twenty-four trays hold all families.
fn any_tray(random: &mut Random, seed: u64, number: u64) -> TrayDraft {
    let (round, family) = (number / 24, number % 24);
    match family {
        0..=4 => good(random),
        5 => summed(random),
        6..=8 => faulty(random, &Kind::IN_TRAY),
        9 => header_fault(random),
        10 => changed(random),
        11 if round.is_multiple_of(2) => bad_character(random),
        11 => bad_sender(random),
        12 | 13 => disordered(random),
        14 => broken(random, "mark", break_mark),
        15 => broken(random, "kind", break_kind),
        16 => broken(random, "tail", break_tail),
        17 => lengthened(random, 1 + round as usize % (TRAY_RECORD - 1)),
        18 => with_header_resized(random),
        19 => twice_broken(random),
        20 => faulty_and_broken(random),
        21 => TrayDraft::of_case(any_generated(random, seed)).unknown(),
        22 if round.is_multiple_of(2) => size::near_limit(random),
        22 => any_bytes(random),
        _ => TrayDraft::of_case(damaged_rules(random)),
    }
}

/// All shapes of good files; their own numbers and controls are lost with the tray.
fn good(random: &mut Random) -> TrayDraft {
    let mut draft = any_file(random);
    if random.once_in(4) {
        fill_free_positions(random, &mut draft);
    }
    TrayDraft::good("good", &draft)
}

fn with_batches(random: &mut Random, family: &'static str) -> TrayDraft {
    TrayDraft::good(family, &file_with_batches(random))
}

/// Sums at the ends of their fields; rare, since these trays are long.
fn summed(random: &mut Random) -> TrayDraft {
    match random.below(8) {
        0 => TrayDraft::good("largest totals", &largest_totals(random).draft),
        1 => TrayDraft::good("largest sums", &largest_sums(random).draft),
        // Controls stand where they stood, so that the answer is the same.
        2..=4 => TrayDraft::of_case(amount_sums(random)),
        _ => good(random),
    }
}

/// One fault in a field, for the reading to find.
fn faulty(random: &mut Random, kinds: &[Kind]) -> TrayDraft {
    let mut draft = file_with_batches(random);
    let reading = put_body_fault(random, &mut draft, kinds);
    TrayDraft::of("fault in a field", &draft, reading)
}

/// With a tray or without.
fn header_fault(random: &mut Random) -> TrayDraft {
    const FAMILY: &str = "fault in the header body";
    let mut tray = faulty(random, &[Kind::FileHeader]);
    tray.family = FAMILY;
    match random.below(4) {
        0 => tray.records.clear(),
        1 => {
            // No header at all, or one of another type.
            tray = with_batches(random, FAMILY);
            tray.header[0] = *random.pick(b"056789 A\xff");
            tray.reading = refused(17, 0);
        }
        _ => {}
    }
    tray
}

/// Some bytes become others that may be as good; what comes of it is not known here.
fn changed(random: &mut Random) -> TrayDraft {
    let mut draft = with_batches(random, "bytes changed").unknown();
    for _ in 0..random.between(1, 4) {
        // The form stays: position 1 and those from 88 on are left alone.
        let index = random.between(3, 88);
        any_record(random, &mut draft)[index] = *random.pick(CHARACTERS);
    }
    draft
}

/// A bad character anywhere but in the type and the tail.
fn bad_character(random: &mut Random) -> TrayDraft {
    let mut draft = with_batches(random, "bad character");
    let place = random.below(draft.records.len());
    let index = random.position(3, 88);
    draft.records[place][index] = bad_byte(random);
    draft.refused_at(17, place)
}

/// No digit in 80-87, of which the table holds no row that ends before the tail.
fn bad_sender(random: &mut Random) -> TrayDraft {
    let mut draft = with_batches(random, "sender's digits");
    let place = random.below(draft.records.len());
    let index = random.position(81, 88);
    let record = &mut draft.records[place];
    record[index] = random.character_with(|byte| !byte.is_ascii_digit());
    match &record[..5] {
        b"AD799" => draft.refused_at(25, place),
        // 80-83 of a concept are free.
        b"AD705" if index < 85 => draft,
        _ => draft.refused_at(17, place),
    }
}

fn disordered(random: &mut Random) -> TrayDraft {
    let mut draft = with_batches(random, "good");
    order::disorder(random, &mut draft);
    draft
}

fn broken(
    random: &mut Random,
    family: &'static str,
    breaking: fn(&mut Random, &mut [u8; TRAY_RECORD]),
) -> TrayDraft {
    let mut draft = with_batches(random, family);
    let record = any_record(random, &mut draft);
    breaking(random, record);
    draft
}

fn lengthened(random: &mut Random, bytes: usize) -> TrayDraft {
    let mut draft = good(random);
    draft.family = "tray length";
    lengthen(random, &mut draft, bytes);
    draft
}

fn with_header_resized(random: &mut Random) -> TrayDraft {
    let mut draft = good(random);
    draft.family = "header length";
    resize_header(random, &mut draft);
    draft
}

/// Two tray records, a length and a record, or both lengths.
fn twice_broken(random: &mut Random) -> TrayDraft {
    let mut draft = with_batches(random, "207 twice");
    let kinds = *random.pick(&[1, 1, 3, 5, 6, 7]);
    if kinds & 1 != 0 {
        break_record(random, &mut draft);
        break_record(random, &mut draft);
        // Both in one record can make a good one of another type, which the reading may refuse.
        draft.reading = None;
    }
    if kinds & 2 != 0 {
        let bytes = random.between(1, TRAY_RECORD - 1);
        lengthen(random, &mut draft, bytes);
    }
    if kinds & 4 != 0 {
        resize_header(random, &mut draft);
    }
    draft
}

/// The reading would refuse the file at another place, before or behind.
fn faulty_and_broken(random: &mut Random) -> TrayDraft {
    let mut draft = faulty(random, &Kind::ALL);
    draft.family = "207 and a fault in a field";
    match random.below(6) {
        0 => lengthen(random, &mut draft, 1),
        1 => resize_header(random, &mut draft),
        _ => break_record(random, &mut draft),
    }
    draft
}

/// Bytes that are no tray, or trays of which nothing but the form is good.
fn any_bytes(random: &mut Random) -> TrayDraft {
    let mut draft = good(random).unknown();
    draft.family = "random bytes";
    if random.once_in(3) {
        draft.header.fill_with(|| random.byte());
    }
    let length = random.below(1_000);
    let whole = length / TRAY_RECORD * TRAY_RECORD;
    let mut bytes: Vec<u8> = (0..length).map(|_| random.byte()).collect();
    if random.once_in(2) {
        bytes.truncate(whole);
        for record in bytes.chunks_exact_mut(TRAY_RECORD) {
            record[..3].copy_from_slice(*random.pick(&[b"LO5", b"IN6", b"AD7"]));
            record[TRAY_RECORD - 7..].fill(b'0');
        }
    }
    draft.records = tray_records(&bytes);
    draft.surplus = bytes[bytes.len() / TRAY_RECORD * TRAY_RECORD..].to_vec();
    draft
}

impl Input for Building {
    fn run(&self, session: &Session, lent: &mut [u8]) -> Result<usize, Refusal> {
        build(session.rules(), &self.header, &self.tray, lent)
    }

    fn needed(&self, _: &Rules) -> usize {
        built_length(&self.tray)
    }

    fn output(&self, rules: &Rules) -> Vec<u8> {
        built_of(rules, &self.header, &self.tray)
    }

    /// Spaces, when the built file was read and refused.
    fn output_of_refusal(&self, refusal: Refusal) -> Vec<u8> {
        match refusal.number {
            201 | 206 | 207 => Vec::new(),
            _ => vec![b' '; built_length(&self.tray)],
        }
    }
}

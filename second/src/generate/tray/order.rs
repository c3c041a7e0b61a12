//! Trays of good records in an order that no file has.

use super::draft::{TrayDraft, TrayRecord};
use crate::generate::case::refused;
use crate::generate::random::Random;

/// Changes the order of a tray with at least one batch, and what the reading says of it.
pub fn disorder(random: &mut Random, draft: &mut TrayDraft) {
    match random.below(12) {
        0 => additional_before_individual(random, draft),
        1 => to_the_front(random, draft, "IN before LO", b"IN"),
        2 => to_the_front(random, draft, "AD before LO", b"AD"),
        3 => without_batch_headers(draft),
        4 => batch_header_alone(draft),
        5 => doubled_batch_header(random, draft),
        6 => batch_header_at_the_end(random, draft),
        7 => additional_twice(random, draft),
        8 => additional_lost(random, draft),
        9 => additional_not_due(random, draft),
        10 => only(random, draft),
        _ => swapped(random, draft),
    }
}

/// Some record with this mark; the batch header's body stands in where there is none.
fn some_record(random: &mut Random, draft: &TrayDraft, mark: &[u8; 2]) -> TrayRecord {
    if let Some(place) = any_of(random, &draft.places(mark)) {
        return draft.records[place];
    }
    let mut record = draft.records[0];
    let kind = if mark == b"AD" { b"705" } else { b"637" };
    record[..2].copy_from_slice(mark);
    record[2..5].copy_from_slice(kind);
    record
}

fn additional_before_individual(random: &mut Random, draft: &mut TrayDraft) {
    draft.family = "AD before IN";
    let place = *random.pick(&draft.places(b"LO")) + 1;
    let record = some_record(random, draft, b"AD");
    draft.records.insert(place, record);
    draft.reading = refused(17, draft.place_in_file(place));
}

fn to_the_front(random: &mut Random, draft: &mut TrayDraft, family: &'static str, mark: &[u8; 2]) {
    draft.family = family;
    let record = some_record(random, draft, mark);
    draft.records.insert(0, record);
    draft.reading = refused(17, 1);
}

fn without_batch_headers(draft: &mut TrayDraft) {
    draft.family = "no LO";
    draft.records.retain(|record| !record.starts_with(b"LO"));
    draft.reading = refused(17, 1);
}

/// Header, 5, 8, 9.
fn batch_header_alone(draft: &mut TrayDraft) {
    draft.family = "LO alone";
    draft.records.truncate(1);
    draft.reading = refused(17, 2);
}

/// A 5, then an 8: the control comes before the later batch header.
fn doubled_batch_header(random: &mut Random, draft: &mut TrayDraft) {
    draft.family = "LO LO";
    let place = *random.pick(&draft.places(b"LO"));
    draft.records.insert(place, draft.records[place]);
    draft.reading = refused(17, draft.place_in_file(place) + 1);
}

fn batch_header_at_the_end(random: &mut Random, draft: &mut TrayDraft) {
    draft.family = "LO at the end";
    let record = some_record(random, draft, b"LO");
    draft.records.push(record);
    let last = draft.records.len() - 1;
    draft.reading = refused(17, draft.place_in_file(last) + 1);
}

fn additional_twice(random: &mut Random, draft: &mut TrayDraft) {
    let Some(place) = any_of(random, &draft.places(b"AD")) else {
        return;
    };
    draft.family = "AD twice";
    draft.records.insert(place, draft.records[place]);
    draft.reading = refused(25, draft.place_in_file(place + 1));
}

/// Whatever comes in its place is 25, also a control.
fn additional_lost(random: &mut Random, draft: &mut TrayDraft) {
    let Some(place) = any_of(random, &draft.places(b"AD")) else {
        return;
    };
    draft.family = "AD lost";
    draft.reading = refused(25, draft.place_in_file(place));
    draft.records.remove(place);
}

fn additional_not_due(random: &mut Random, draft: &mut TrayDraft) {
    let mut places = draft.places(b"IN");
    // Position 79 says that none follows.
    places.retain(|&place| draft.records[place][80] == b'0');
    let Some(place) = any_of(random, &places) else {
        return;
    };
    draft.family = "AD not due";
    let record = some_record(random, draft, b"AD");
    draft.records.insert(place + 1, record);
    draft.reading = refused(25, draft.place_in_file(place + 1));
}

fn any_of(random: &mut Random, places: &[usize]) -> Option<usize> {
    (!places.is_empty()).then(|| *random.pick(places))
}

/// Nothing but individual records, or nothing but additionals.
fn only(random: &mut Random, draft: &mut TrayDraft) {
    let mark = *random.pick(&[b"IN", b"AD"]);
    let record = some_record(random, draft, mark);
    draft.family = "one kind only";
    draft.records = vec![record; random.between(1, 5)];
    draft.reading = refused(17, 1);
}

fn swapped(random: &mut Random, draft: &mut TrayDraft) {
    draft.family = "records swapped";
    let first = random.below(draft.records.len());
    let second = random.below(draft.records.len());
    draft.records.swap(first, second);
    draft.reading = None;
}

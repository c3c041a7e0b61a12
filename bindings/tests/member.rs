//! A member's desk: extracts received, and the reasons of their rejections shown.

mod common;
mod rejections;

use common::{junk, lent, record, refused, tray_of, L, OPENING};
use desk::calls::{self, Spoken};
use desk::{Fault, FILE_LIMIT, IN_FILE, IN_MOTIVES, MOTIVES, NOWHERE, RECORD, TEXT, TRAY_RECORD};
use rejections::{motives, rejection};

/// Whose extract it is, and how many records it has.
const ENTITY: u64 = 402;
const RECORDS: usize = 15;

/// Where the additional records of its rejections stand, with their R numbers; one has this text, and one none.
const WITH_TEXT: (u64, u8) = (4, 10);
const WITHOUT: (u64, u8) = (8, 29);
const REASON: &str = "SIN FONDOS AL VENCIMIENTO";

/// What 402 is handed out of a file with debits, a credit with its additional, and rejections, to 402 and 403.
fn extract() -> Vec<u8> {
    let mut tray = tray_of(L);
    tray[4 * TRAY_RECORD..][5..9].copy_from_slice(b"0402");
    let of = |place: usize| &tray[place * TRAY_RECORD..][..TRAY_RECORD];
    let tray = [
        of(0),
        of(1),
        &rejection("36", "04020001", WITH_TEXT.1, REASON),
        of(2),
        of(0),
        &rejection("36", "04030002", 99, REASON),
        &rejection("31", "04020001", WITHOUT.1, ""),
        of(3),
        of(4),
        of(5),
    ];
    let build = |out: &mut [u8]| OPENING.build(record(L, 0), &tray.concat(), out);
    let (answer, file) = lent(FILE_LIMIT, build);
    let file = &file[..answer.expect("a file")];
    let (answer, extract) = lent(RECORDS * RECORD, |out| OPENING.extract(ENTITY, file, out));
    assert_eq!(answer, Ok(extract.len()));
    extract
}

/// The extract with another text, at a record from 0 and a position from 1.
fn changed(place: usize, position: usize, text: &[u8]) -> Vec<u8> {
    let mut file = extract();
    file[place * RECORD + position - 1..][..text.len()].copy_from_slice(text);
    file
}

/// The text in the first rejection, and the line for the second.
fn texts() -> [Vec<u8>; 2] {
    [format!("{REASON:<TEXT$}").into(), vec![WITHOUT.1; TEXT]]
}

#[test]
fn every_extract_is_received_by_its_own_desk() {
    for entity in [401, 402, 403] {
        let (answer, extract) = lent(L.len(), |out| OPENING.extract(entity, L, out));
        let extract = &extract[..answer.unwrap()];
        assert_eq!(OPENING.receive(entity, extract), Ok(extract.len() / RECORD));
    }
    assert_eq!(OPENING.receive(ENTITY, &extract()), Ok(RECORDS));
}

#[test]
fn receiving_is_refused() {
    let extract = extract();
    for entity in [0, 404, 500, u64::MAX] {
        assert_eq!(OPENING.receive(entity, &[]), refused(Fault::Entity, 0));
    }
    assert_eq!(OPENING.receive(ENTITY, &[]), refused(Fault::Length, 0));
    // another desk's, and the house's own file
    assert_eq!(OPENING.receive(401, &extract), refused(Fault::Format, 0));
    assert_eq!(OPENING.receive(ENTITY, L), refused(Fault::Format, 0));
    // a foreign destination, and a wrong batch number
    let foreign = changed(7, 4, b"04030002");
    assert_eq!(OPENING.receive(ENTITY, &foreign), refused(Fault::Format, 7));
    let third = changed(6, 88, b"0000003");
    assert_eq!(OPENING.receive(ENTITY, &third), refused(Fault::Format, 6));
    let zero = changed(2, 30, b"0000000000");
    assert_eq!(OPENING.receive(ENTITY, &zero), refused(Fault::Amount, 2));
    // the house takes no extract
    assert_eq!(OPENING.read(&extract), refused(Fault::Format, 0));
}

#[test]
fn show_the_text_itself() {
    let (extract, motives, texts) = (extract(), motives(), texts());
    let show = |record| OPENING.show(ENTITY, &extract, &motives, record);
    let shown = [WITH_TEXT.0, WITHOUT.0].map(|record| show(record).unwrap());
    assert_eq!(shown, texts.each_ref().map(Vec::as_slice));
    // it is no copy
    let own = &record(&extract, WITH_TEXT.0 as usize)[35..79];
    let line = &motives[TEXT * usize::from(WITHOUT.1)..];
    assert_eq!(shown.map(<[u8]>::as_ptr), [own, line].map(<[u8]>::as_ptr));
    // one byte that is no blank will do
    for position in [36, 79] {
        let file = changed(WITHOUT.0 as usize, position, b"X");
        let text = OPENING.show(ENTITY, &file, &motives, WITHOUT.0).unwrap();
        let mut expected = [b' '; TEXT];
        expected[position - 36] = b'X';
        assert_eq!(text, expected);
    }
}

#[test]
fn show_in_four_numbers() {
    let (extract, motives) = (extract(), motives());
    let show = |record| {
        let shown = calls::show(&OPENING, ENTITY, &extract, &motives, record);
        [shown.number, shown.place, shown.source, shown.at]
    };
    let (in_file, in_motives) = (WITH_TEXT.0 * 94 + 35, u64::from(WITHOUT.1) * 44);
    assert_eq!(show(WITH_TEXT.0), [0, 44, IN_FILE, in_file]);
    assert_eq!(show(WITHOUT.0), [0, 44, IN_MOTIVES, in_motives]);
    for record in [0, u64::MAX] {
        assert_eq!(show(record), [214, 0, NOWHERE, 0]);
    }
}

#[test]
fn showing_is_refused() {
    let (extract, motives) = (extract(), motives());
    let records = (0..RECORDS as u64).chain([1 << 32, u64::MAX]);
    for record in records.filter(|record| ![WITH_TEXT.0, WITHOUT.0].contains(record)) {
        let shown = OPENING.show(ENTITY, &extract, &motives, record);
        assert_eq!(shown, refused(Fault::Reason, 0), "record {record}");
    }
    // 208, then 207, then the reading's, then 214
    let cut = &extract[..extract.len() - RECORD];
    let longer = junk(MOTIVES + 1);
    for list in [&[], &longer[2..], &longer] {
        let shown = OPENING.show(404, cut, list, 0);
        assert_eq!(shown, refused(Fault::Entity, 0));
        let shown = OPENING.show(ENTITY, cut, list, 0);
        assert_eq!(shown, refused(Fault::Tray, 0));
        let all = OPENING.reasons(ENTITY, cut, list);
        assert_eq!(all, refused(Fault::Tray, 0));
    }
    let shown = OPENING.show(ENTITY, cut, &motives, 0);
    assert_eq!(shown, refused(Fault::Format, RECORDS - 1));
    let all = OPENING.reasons(ENTITY, cut, &motives);
    assert_eq!(all, refused(Fault::Format, RECORDS - 1));
    assert_eq!(
        OPENING.reasons(404, cut, &motives),
        refused(Fault::Entity, 0)
    );
}

#[test]
fn reasons_are_what_showing_shows() {
    let (extract, motives, texts) = (extract(), motives(), texts());
    let reasons = OPENING.reasons(ENTITY, &extract, &motives).unwrap();
    let found = reasons.iter();
    let found = found.map(|reason| (reason.record as u64, reason.number, reason.text));
    let expected = [
        (WITH_TEXT.0, WITH_TEXT.1, texts[0].as_slice()),
        (WITHOUT.0, WITHOUT.1, texts[1].as_slice()),
    ];
    assert_eq!(found.collect::<Vec<_>>(), expected);
    let (answer, none) = lent(L.len(), |out| OPENING.extract(402, L, out));
    let none = OPENING.reasons(402, &none[..answer.unwrap()], &motives);
    assert_eq!(none, Ok(vec![]));
}

#[test]
fn texts_in_a_buffer_of_any_length() {
    const JUNK: u64 = 0x5a5a_5a5a_5a5a_5a5a;
    let (extract, motives, behind) = (extract(), motives(), 3);
    let mut expected = vec![0; 2 * RECORDS];
    for record in 0..RECORDS {
        let shown = calls::show(&OPENING, ENTITY, &extract, &motives, record as u64);
        (expected[2 * record], expected[2 * record + 1]) = (shown.source, shown.at);
    }
    for length in 0..2 * RECORDS + 4 {
        let mut texts = vec![JUNK; length + behind];
        let said = calls::reasons(&OPENING, ENTITY, &extract, &motives, &mut texts[..length]);
        let (number, place) = (0, RECORDS as u64);
        assert_eq!(said, Spoken { number, place });
        let whole = (length / 2 * 2).min(expected.len());
        let (written, rest) = texts.split_at(whole);
        assert_eq!(written, &expected[..whole], "{length} were lent");
        assert!(
            rest.iter().all(|&number| number == JUNK),
            "{length} were lent"
        );
    }
}

//! Refusals: each names its number and place, and leaves the buffers as document 01 says.

mod common;
mod company;

use common::{junk, lent, record, refused, tray_of, L, OPENING};
use company::{company_file, lo};
use desk::calls::{self, Spoken};
use desk::{Cell, Currency, Fault, Opening, Place, Refusal, UnknownNumber};
use desk::{COMPANY_RECORD, ENTITIES, FIGURES, LISTING, MOTIVES, RECORD, TRAY_RECORD};

/// The job is refused, and its buffer stays as it was.
fn stays(
    length: usize,
    expected: (Fault, usize),
    job: impl FnOnce(&mut [u8]) -> Result<usize, Refusal>,
) {
    let (fault, record) = expected;
    let (answer, buffer) = lent(length, job);
    assert_eq!(answer, refused(fault, record));
    assert!(buffer == junk(length), "the buffer after {answer:?}");
}

#[test]
fn extracting() {
    for entity in [0, 404, 500, u64::MAX] {
        let not_here = (Fault::Entity, 0);
        stays(L.len(), not_here, |out| OPENING.extract(entity, L, out));
    }
    let mut zero_amount = L.to_vec();
    zero_amount[2 * RECORD..][29..39].fill(b'0');
    let amount = (Fault::Amount, 2);
    stays(L.len(), amount, |out| {
        OPENING.extract(402, &zero_amount, out)
    });
    let short = (Fault::Room, 0);
    stays(5 * RECORD - 1, short, |out| OPENING.extract(402, L, out));
    stays(0, short, |out| OPENING.extract(402, L, out));
}

#[test]
fn stripping() {
    let cut = &L[..L.len() - RECORD];
    stays(L.len(), (Fault::Format, 9), |out| OPENING.strip(cut, out));
    let tray = tray_of(L);
    stays(tray.len() - 1, (Fault::Room, 0), |out| {
        OPENING.strip(L, out)
    });
}

#[test]
fn building_leaves_the_buffer() {
    let (header, tray) = (record(L, 0), tray_of(L));
    let malformed = (Fault::Tray, 0);
    stays(L.len(), malformed, |out| {
        OPENING.build(&header[1..], &tray, out)
    });
    stays(L.len(), malformed, |out| {
        OPENING.build(header, &tray[1..], out)
    });
    let mut bad_mark = tray.clone();
    bad_mark[3 * TRAY_RECORD] = b'X';
    stays(L.len(), (Fault::Tray, 3), |out| {
        OPENING.build(header, &bad_mark, out)
    });
    let additional = &tray[5 * TRAY_RECORD..];
    stays(L.len(), (Fault::Length, 0), |out| {
        OPENING.build(header, &additional.repeat(9_999), out)
    });
    stays(L.len() - 1, (Fault::Room, 0), |out| {
        OPENING.build(header, &tray, out)
    });
}

#[test]
fn building_what_the_reading_refuses_leaves_spaces() {
    let mut tray = tray_of(L);
    tray[TRAY_RECORD..][31..41].fill(b'0');
    let (answer, buffer) = lent(L.len() + 5, |out| OPENING.build(record(L, 0), &tray, out));
    assert_eq!(answer, refused(Fault::Amount, 2));
    assert_eq!(buffer, [vec![b' '; L.len()], junk(5)].concat());
}

/// A company's file of two details, and what an accepted one needs of the buffer.
fn two_details() -> Vec<u8> {
    company_file(Currency::Pesos, &[12_500, 40_000])
}
const TRAY: usize = 3 * TRAY_RECORD;

/// The company's file is refused, for pesos.
fn company_stays(expected: (Fault, usize), lo: &[u8], file: &[u8], room: usize) {
    stays(room, expected, |out| {
        desk::company(Currency::Pesos, lo, file, out)
    });
}

/// With another text, at a record of so many bytes, from 0, and a position from 1.
fn changed(bytes: &[u8], length: usize, place: usize, position: usize, text: &str) -> Vec<u8> {
    let mut bytes = bytes.to_vec();
    bytes[place * length + position - 1..][..text.len()].copy_from_slice(text.as_bytes());
    bytes
}

#[test]
fn a_company_at_0() {
    let (lo, file) = (lo(Currency::Pesos), two_details());
    let longer = [file.as_slice(), b" "].concat();
    let unmarked = &changed(&lo, RECORD, 0, 1, "6");
    // 201 before 207
    for file in [&[], &file[..COMPANY_RECORD - 1], &file[1..], &longer] {
        company_stays((Fault::Length, 0), unmarked, file, TRAY);
    }
    // 207 before the details
    let numbered = changed(&lo, RECORD, 0, 94, "1");
    let surplus = [lo.as_slice(), b" "].concat();
    let no_detail = changed(&file, COMPANY_RECORD, 0, 1, "T");
    for lo in [&[], &lo[1..], &surplus, unmarked, &numbered] {
        company_stays((Fault::Tray, 0), lo, &no_detail, TRAY);
    }
    for room in [0, TRAY - 1] {
        company_stays((Fault::Room, 0), &lo, &file, room);
    }
}

#[test]
fn a_company_at_a_record() {
    let (lo, file) = (lo(Currency::Pesos), two_details());
    for (place, position, text, fault) in [
        (1, 1, "T", Fault::Format),
        (1, 41, " ", Fault::Format),
        (1, 58, "X", Fault::Format),
        (1, 34, "000", Fault::Format),
        (1, 34, "500", Fault::Format),
        (1, 89, "               ", Fault::Format),
        (1, 59, "                      ", Fault::Format),
        (1, 103, "a", Fault::Format),
        (1, 80, "\n", Fault::Format),
        (1, 114, "82", Fault::Currency),
        (1, 104, "0000000000", Fault::Amount),
        (1, 104, " ", Fault::Amount),
        (1, 26, "31062025", Fault::Date),
        (1, 26, "30061925", Fault::Date),
        (1, 26, "01072025", Fault::Date),
        (2, 1, "D", Fault::Format),
        (2, 11, "3", Fault::Format),
        (2, 18, "3", Fault::Format),
        (2, 25, "1", Fault::Format),
        (2, 104, "0000052501", Fault::Format),
    ] {
        let file = changed(&file, COMPANY_RECORD, place, position, text);
        // 206 comes after it
        for room in [TRAY, 0] {
            company_stays((fault, place), &lo, &file, room);
        }
    }
}

#[test]
fn a_company_at_its_first_fault() {
    let (lo, mut file) = (lo(Currency::Pesos), two_details());
    // each before what was changed before it
    for (place, position, text, fault) in [
        (2, 1, "D", Fault::Format),
        (1, 1, "T", Fault::Format),
        (0, 26, "00000000", Fault::Date),
        (0, 104, "0000000000", Fault::Amount),
        (0, 114, "82", Fault::Currency),
        (0, 1, "T", Fault::Format),
    ] {
        file = changed(&file, COMPANY_RECORD, place, position, text);
        company_stays((fault, place), &lo, &file, TRAY);
    }
}

#[test]
fn empty_files() {
    let length = refused(Fault::Length, 0);
    assert_eq!(OPENING.read(&[]), length);
    assert_eq!(OPENING.extract(402, &[], &mut []), length);
    assert_eq!(OPENING.strip(&[], &mut []), length);
    assert_eq!(OPENING.receive(402, &[]), length);
    let company = desk::company(Currency::Pesos, &[], &[], &mut []);
    assert_eq!(company, length);
    assert_eq!(OPENING.build(&[], &[], &mut []), refused(Fault::Tray, 0));
    assert_eq!(desk::listing(&[]), b"REFUSED 201 AT 0\n");
    let day = OPENING.day(&[b"", b""]).unwrap();
    assert_eq!(day.answers, [refused(Fault::Length, 0); 2]);
}

#[test]
fn a_day_without_files() {
    let day = OPENING.day(&[]).unwrap();
    assert_eq!(day.answers, []);
    assert_eq!(day.cells, vec![Cell::default(); ENTITIES]);
    let nothing = b"ENTITY SENT RECEIVED NET\nSUM 0 0 0\n";
    assert_eq!(OPENING.day_listing(&[]).unwrap(), nothing);
    assert_eq!(OPENING.answer(), Ok(()));
}

/// Every job says the opening's refusal, and writes nothing.
fn assert_not_opened(opening: Opening, fault: Fault) {
    let place = Place::Opening;
    let refusal = Refusal { fault, place };
    assert_eq!(opening.answer(), Err(refusal));
    assert_eq!(opening.read(L), Err(refusal));
    assert_eq!(opening.day(&[L]), Err(refusal));
    assert_eq!(opening.day_listing(&[L]), Err(refusal));
    let jobs: [&dyn Fn(&mut [u8]) -> Result<usize, Refusal>; 3] = [
        &|out| opening.extract(402, L, out),
        &|out| opening.build(record(L, 0), &tray_of(L), out),
        &|out| opening.strip(L, out),
    ];
    for job in jobs {
        let (answer, buffer) = lent(L.len(), job);
        assert_eq!((answer, buffer), (Err(refusal), junk(L.len())));
    }
    let (said, number) = (|said: Spoken| (said.number, said.place), fault.number());
    assert_eq!(opening.receive(402, L), Err(refusal));
    let motives = junk(MOTIVES);
    assert_eq!(opening.show(402, L, &motives, 0), Err(refusal));
    assert_eq!(opening.reasons(402, L, &motives), Err(refusal));
    let shown = calls::show(&opening, 402, L, &motives, 0);
    assert_eq!((shown.number, shown.place), (number, desk::OPENING));
    assert_eq!((shown.source, shown.at), (desk::NOWHERE, 0));
    let mut texts = [7; 20];
    let reasons = calls::reasons(&opening, 402, L, &motives, &mut texts);
    assert_eq!((said(reasons), texts), ((number, desk::OPENING), [7; 20]));
    let (mut answers, mut figures, mut out) = ([7; 2], [7; FIGURES * ENTITIES], [7; LISTING]);
    let day = calls::day(&opening, &[940], L, &mut answers, &mut figures);
    assert_eq!(said(day), (number, desk::OPENING));
    assert_eq!((answers, figures), ([7; 2], [7; FIGURES * ENTITIES]));
    let listing = calls::day_listing(&opening, &[940], L, &mut out);
    assert_eq!(said(listing), (number, desk::OPENING));
    assert_eq!(out, [7; LISTING]);
}

#[test]
fn bad_openings() {
    let (date, entities) = (250_631, [401, 402, 403, 500]);
    let entities = &entities;
    assert_not_opened(Opening { date, ..OPENING }, Fault::Date);
    assert_not_opened(
        Opening {
            date,
            entities,
            ..OPENING
        },
        Fault::Date,
    );
    assert_not_opened(
        Opening {
            entities,
            ..OPENING
        },
        Fault::Entity,
    );
    let entities = &[0];
    assert_not_opened(
        Opening {
            entities,
            ..OPENING
        },
        Fault::Entity,
    );
}

#[test]
fn shown_in_words() {
    let refusal = OPENING.strip(&[], &mut []).unwrap_err();
    let words = "file under 188 or over 940,000 bytes, or no multiple of 94; a company's under 250, or no multiple of 250";
    assert_eq!(refusal.to_string(), format!("refused 201 at 0: {words}"));
    let bad_date = Opening { date: 0, ..OPENING };
    let refusal = bad_date.read(L).unwrap_err();
    assert_eq!(refusal.to_string(), "opening refused 75: date wrong");
}

#[test]
fn a_fault_gives_its_number_and_back() {
    for &fault in Fault::ALL {
        assert_eq!(Fault::try_from(fault.number()), Ok(fault));
        assert_eq!(u64::from(fault), fault.number());
    }
    for number in [0, 16, 210, 65_536 + 17, u64::MAX] {
        assert_eq!(Fault::try_from(number), Err(UnknownNumber(number)));
    }
    assert_eq!(Fault::Identifier.number(), 209);
    assert_eq!(Fault::Reason.number(), 214);
}

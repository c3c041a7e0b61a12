//! Every job on case L, and companies' files.

mod common;
mod company;

use common::{junk, lent, record, refused, tray_of, L, OPENING};
use company::{company_file, lo};
use desk::calls::{self, Spoken};
use desk::{Cell, Currency, Fault, Opening, ENTITIES, FIGURES, FILE_LIMIT};
use desk::{POSITION, RECEIVED, RECORD, SENT, TRAY_RECORD, TRAY_ROOM};

const LISTING: &str = "ENTITY SENT RECEIVED NET
401 2 1 60000
402 0 1 -12500
403 1 1 -47500
SUM 3 3 0
";

#[test]
fn read() {
    let answer = |currency, entities: &[u64]| {
        let opening = Opening {
            currency,
            entities,
            ..OPENING
        };
        opening.read(L)
    };
    assert_eq!(answer(Currency::Pesos, &[403, 401, 402, 401]), Ok(10));
    let currency = refused(Fault::Currency, 0);
    assert_eq!(answer(Currency::Dollars, &[401, 402, 403]), currency);
    let first_to_403 = refused(Fault::Roster, 3);
    assert_eq!(answer(Currency::Pesos, &[401, 402]), first_to_403);
}

#[test]
fn day_with_the_file_twice() {
    let day = OPENING.day(&[L, L]).unwrap();
    assert_eq!(day.answers, [Ok(()), refused(Fault::Identifier, 0)]);
    let mut expected = vec![Cell::default(); ENTITIES];
    for (entity, position, sent, received) in [
        (401, 60_000, 2, 1),
        (402, -12_500, 0, 1),
        (403, -47_500, 1, 1),
    ] {
        let cell = &mut expected[entity];
        (cell.position, cell.sent, cell.received) = (position, sent, received);
    }
    assert_eq!(day.cells, expected);
}

/// The figures at the end of a day with case L.
fn figures() -> Vec<i64> {
    let mut figures = vec![0; FIGURES * ENTITIES];
    for (figure, entity, number) in [
        (POSITION, 401, 60_000),
        (POSITION, 402, -12_500),
        (POSITION, 403, -47_500),
        (SENT, 401, 2),
        (SENT, 403, 1),
        (RECEIVED, 401, 1),
        (RECEIVED, 402, 1),
        (RECEIVED, 403, 1),
    ] {
        figures[figure * ENTITIES + entity] = number;
    }
    figures
}

#[test]
fn figures_in_a_buffer_of_any_length() {
    const JUNK: i64 = -0x5a5a_5a5a_5a5a_5a5b;
    let (figures, behind) = (figures(), 3);
    for length in [0, 1, 402, 500, 902, 1_499, 1_500, 1_501, 2_000, 2_500] {
        let mut buffer = vec![JUNK; length + behind];
        let ends = [L.len() as u64];
        let said = calls::day(&OPENING, &ends, L, &mut [], &mut buffer[..length]);
        let (number, place) = (0, 0);
        assert_eq!(said, Spoken { number, place });
        let (written, rest) = buffer.split_at(length.min(figures.len()));
        assert_eq!(written, &figures[..written.len()], "{length} were lent");
        assert!(
            rest.iter().all(|&number| number == JUNK),
            "{length} were lent"
        );
    }
}

#[test]
fn files_of_a_day_are_kept_apart() {
    let mut other = L.to_vec();
    other[33] = b'B';
    let day = OPENING.day(&[b"", L, &L[1..], &other]).unwrap();
    let wrong = refused(Fault::Length, 0);
    assert_eq!(day.answers, [wrong, Ok(()), wrong, Ok(())]);
    assert_eq!(day.cells[402].position, -25_000);
}

#[test]
fn listings() {
    let listed = OPENING.day_listing(&[L, L]);
    assert_eq!(listed.unwrap(), LISTING.as_bytes());
    assert_eq!(desk::listing(L), LISTING.as_bytes());
    let zero_amount = include_bytes!("../../samples/zero-amount.txt");
    assert_eq!(desk::listing(zero_amount), b"REFUSED 19 AT 2\n");
}

#[test]
fn extract_for_402() {
    let header = format!(
        "{:<40}{:<23}{:<31}",
        "101 040200000 9999000102506301230A094101", "BANCO 401", "CAMARA"
    );
    let control = format!(
        "{:<79}040100010000001",
        "820000000100040200010000000125000000000000003050001091"
    );
    let file_control = format!(
        "{:<94}",
        "9000001000001000000010004020001000000012500000000000000"
    );
    let expected = [
        header.as_bytes(),
        record(L, 1),
        record(L, 2),
        control.as_bytes(),
        file_control.as_bytes(),
        &junk(L.len() - 5 * RECORD),
    ];
    let (answer, buffer) = lent(L.len(), |out| OPENING.extract(402, L, out));
    assert_eq!(answer, Ok(5 * RECORD));
    assert_eq!(buffer, expected.concat());
}

#[test]
fn strip_and_build_back() {
    let tray = tray_of(L);
    let (answer, buffer) = lent(TRAY_ROOM, |out| OPENING.strip(L, out));
    assert_eq!(answer, Ok(tray.len()));
    assert!(buffer == [tray.as_slice(), &junk(TRAY_ROOM - tray.len())].concat());
    let (answer, buffer) = lent(FILE_LIMIT, |out| OPENING.build(record(L, 0), &tray, out));
    assert_eq!(answer, Ok(L.len()));
    assert!(buffer == [L, &junk(FILE_LIMIT - L.len())].concat());
}

#[test]
fn build_from_an_empty_tray() {
    let (answer, buffer) = lent(2 * RECORD, |out| OPENING.build(record(L, 0), &[], out));
    assert_eq!(answer, Ok(2 * RECORD));
    assert_eq!(OPENING.day(&[&buffer]).unwrap().answers, [Ok(())]);
}

/// What details of 125 and 400 become.
const ORDERS: [(Currency, [&str; 2]); 2] = [
    (
        Currency::Pesos,
        [
            "IN637040200010000020513429100560000012500RECIBO 0001    PEREZ JUAN            000040100010000000",
            "IN637040300020000000000000000000000040000RECIBO 0002    GOMEZ ANA             000040100010000000",
        ],
    ),
    (
        Currency::Dollars,
        [
            "IN637090200010000020513429100560000012500RECIBO 0001    PEREZ JUAN            000090100010000000",
            "IN637090300020000000000000000000000040000RECIBO 0002    GOMEZ ANA             000090100010000000",
        ],
    ),
];
const AMOUNTS: [u64; 2] = [12_500, 40_000];

#[test]
fn trays_of_a_company() {
    for (currency, orders) in ORDERS {
        let (lo, file) = (lo(currency), company_file(currency, &AMOUNTS));
        let tray = [b"LO", lo.as_slice(), orders.concat().as_bytes()].concat();
        for behind in [0, 5] {
            let job = |out: &mut [u8]| desk::company(currency, &lo, &file, out);
            let (answer, buffer) = lent(tray.len() + behind, job);
            assert_eq!(answer, Ok(tray.len()));
            assert_eq!(buffer, [tray.as_slice(), &junk(behind)].concat());
        }
    }
}

#[test]
fn a_closing_record_alone() {
    let (lo, file) = (lo(Currency::Pesos), company_file(Currency::Pesos, &[]));
    for currency in [Currency::Pesos, Currency::Dollars] {
        let job = |out: &mut [u8]| desk::company(currency, &lo, &file, out);
        let (answer, buffer) = lent(TRAY_RECORD + 5, job);
        assert_eq!(answer, Ok(TRAY_RECORD));
        assert_eq!(buffer, [b"LO", lo.as_slice(), &junk(5)].concat());
    }
}

#[test]
fn build_from_a_company_and_strip_back() {
    let (lo, file) = (lo(Currency::Pesos), company_file(Currency::Pesos, &AMOUNTS));
    let (answer, tray) = lent(3 * TRAY_RECORD, |out| {
        desk::company(Currency::Pesos, &lo, &file, out)
    });
    assert_eq!(answer, Ok(tray.len()));
    let (answer, built) = lent(6 * RECORD, |out| OPENING.build(record(L, 0), &tray, out));
    assert_eq!(answer, Ok(built.len()));
    let (answer, stripped) = lent(tray.len(), |out| OPENING.strip(&built, out));
    assert_eq!((answer, stripped), (Ok(tray.len()), tray));
}

#[test]
fn dollars() {
    let opening = Opening {
        currency: Currency::Dollars,
        ..OPENING
    };
    assert_eq!(opening.answer(), Ok(()));
    let day = opening.day(&[L]).unwrap();
    assert_eq!(day.answers, [refused(Fault::Currency, 0)]);
}

//! Extracting: case L for each of its entities, written out by hand, and the order of refusals.

mod common;

use common::*;
use second::{Currency, Session};

const FOR_402: [&str; 5] = [
    "101 040200000 000000010240229    A094101BANCO 401              CAMARA COMPENSADORA    REFER 01",
    "5200ACME                                3012345678PPDSEGURO          240301   9040100010000001",
    "637040200010000000000000000000000012500FACTURA 1      CLIENTE 1             000040100010000001",
    "820000000100040200010000000125000000000000003012345678                         040100010000001",
    "9000001000001000000010004020001000000012500000000000000                                       ",
];

const FOR_403: [&str; 5] = [
    "101 040300000 000000010240229    A094101BANCO 401              CAMARA COMPENSADORA    REFER 01",
    "5200ACME                                3012345678PPDSEGURO          240301   9040100010000001",
    "637040300020000000000000000000000040000FACTURA 1      CLIENTE 1             000040100010000002",
    "820000000100040300020000000400000000000000003012345678                         040100010000001",
    "9000001000001000000010004030002000000040000000000000000                                       ",
];

const FOR_401: [&str; 6] = [
    "101 040100000 000000010240229    A094101BANCO 401              CAMARA COMPENSADORA    REFER 01",
    "5200ACME                                3012345678PPDSEGURO          240301   9040300020000001",
    "632040100010000000000000000000000007500FACTURA 1      CLIENTE 1             001040300020000003",
    "705                                                                                00010000003",
    "820000000200040100010000000000000000000075003012345678                         040300020000001",
    "9000001000001000000020004010001000000000000000000007500                                       ",
];

const FOR_404: [&str; 2] = [
    "101 040400000 000000010240229    A094101BANCO 401              CAMARA COMPENSADORA    REFER 01",
    "9000000000001000000000000000000000000000000000000000000                                       ",
];

/// Case L with both names in its header, and something behind them.
fn named_listing() -> Vec<Record> {
    let mut records = listing();
    put(&mut records[0], 41, "CAMARA COMPENSADORA");
    put(&mut records[0], 64, "BANCO 401");
    put(&mut records[0], 87, "REFER 01");
    records
}

fn opened(currency: Currency, entities: &[u64]) -> Session {
    let (answer, session) = Session::open(240_229, currency, entities);
    assert_eq!(answer, Ok(()));
    session
}

fn four() -> Session {
    opened(Currency::Pesos, &[401, 402, 403, 404])
}

fn gives(session: &Session, entity: u64, file: &[u8], expected: &[u8]) {
    lending::writes(expected, |out| session.extract(entity, file, out));
}

fn refuses(session: &Session, entity: u64, file: &[u8], room: usize, number: u16, place: usize) {
    let job = |out: &mut [u8]| session.extract(entity, file, out);
    lending::refuses(room, number, place, job);
}

#[test]
fn case_l_for_402_and_403() {
    let file = named_listing().concat();
    gives(&four(), 402, &file, FOR_402.concat().as_bytes());
    gives(&four(), 403, &file, FOR_403.concat().as_bytes());
}

/// The second batch becomes the first, and its additional comes along.
#[test]
fn case_l_for_401() {
    let file = named_listing().concat();
    gives(&four(), 401, &file, FOR_401.concat().as_bytes());
}

#[test]
fn nothing_for_404() {
    let expected = FOR_404.concat();
    gives(&four(), 404, &named_listing().concat(), expected.as_bytes());
    let mut file = empty_file("04010001");
    file[..94].copy_from_slice(&named_listing()[0]);
    gives(&four(), 404, &file, expected.as_bytes());
}

/// What stood in free positions of controls, and in batch numbers, is not handed on.
#[test]
fn controls_are_blank_where_they_are_free() {
    let mut records = named_listing();
    for place in [4, 8] {
        put(&mut records[place], 55, "FREE POSITIONS 55 TO 79..");
    }
    let filled = "FREE POSITIONS 56 TO 94................";
    put(&mut records[9], 56, filled);
    for place in [1, 4] {
        put(&mut records[place], 88, "0000017");
    }
    for place in [5, 8] {
        put(&mut records[place], 88, "9999999");
    }
    let file = records.concat();
    gives(&four(), 402, &file, FOR_402.concat().as_bytes());
    gives(&four(), 401, &file, FOR_401.concat().as_bytes());
}

/// Free positions of batch headers and additionals come along unchanged.
#[test]
fn headers_and_additionals_keep_their_free_positions() {
    let mut records = named_listing();
    put(&mut records[5], 21, "DISCRETIONARY");
    put(&mut records[5], 76, "XYZ");
    put(&mut records[7], 4, "CONCEPT");
    let mut expected = FOR_401.map(String::from);
    expected[1].replace_range(20..33, "DISCRETIONARY");
    expected[1].replace_range(75..78, "XYZ");
    expected[3].replace_range(3..10, "CONCEPT");
    let expected = expected.concat();
    gives(&four(), 401, &records.concat(), expected.as_bytes());
}

/// Two batches to 402 at three branches, the second from itself, and a batch between them to 403 alone.
fn three_batches() -> Vec<Record> {
    let first = "0000030012080402000000000111000000000000";
    let second = "0000010004030402000000001000000000000000";
    let third = "0000010004020000000000010000000000000000";
    vec![
        header("04010001"),
        batch_header("04010001", "0000005"),
        individual("37", "04020001", "0000000001", "000", "040100010000001"),
        individual("37", "04030402", "0000000010", "000", "040100010000002"),
        individual("37", "04029999", "0000000100", "000", "040100010000003"),
        batch_control(first, "04010001", "0000005"),
        batch_header("04010001", "0000006"),
        individual("37", "04030402", "0000001000", "000", "040100010000004"),
        batch_control(second, "04010001", "0000006"),
        batch_header("04020000", "0000007"),
        individual("37", "04020000", "0000010000", "000", "040200000000005"),
        batch_control(third, "04020000", "0000007"),
        file_control("000003000002000000050020130804000000011111000000000000"),
    ]
}

#[test]
fn every_branch_and_only_batches_with_a_record() {
    let records = three_batches();
    let mut first = header("04010001");
    put(&mut first, 4, " 040200000 000000010");
    let sums = [
        "0000020008050000000000000101000000000000",
        "0000010004020000000000010000000000000000",
    ];
    let expected = [
        first,
        batch_header("04010001", "0000001"),
        records[2],
        records[4],
        batch_control(sums[0], "04010001", "0000001"),
        batch_header("04020000", "0000002"),
        records[10],
        batch_control(sums[1], "04020000", "0000002"),
        file_control("000002000001000000030012070000000000010101000000000000"),
    ];
    gives(&four(), 402, &records.concat(), &expected.concat());
}

#[test]
fn dollars_add_500() {
    let (session, file) = (opened(Currency::Dollars, &[2, 499]), IN_DOLLARS.file());
    let mut expected = file.clone();
    put(&mut expected, 4, " 099900000 000000010");
    gives(&session, 499, &file, &expected);
    refuses(&session, 999, &file, 940, 208, 0);
    let in_pesos = opened(Currency::Pesos, &[2, 499]);
    refuses(&in_pesos, 499, &file, 940, 203, 0);
}

/// 1,001 records to 09999999, among others: the total keeps its last ten digits.
#[test]
fn totals_keep_their_last_ten_digits() {
    let mut records = vec![header("05010001"), batch_header("05010001", "0000003")];
    records.extend(orders("05010001", "09999999", 1_001));
    let other = individual("37", "05010001", "0000000001", "000", "050100010001002");
    records.push(other);
    let sums = "0010020015009000000000001002000000000000";
    records.push(batch_control(sums, "05010001", "0000003"));
    records.push(file_control(&format!("00000100010100{sums}")));
    let session = opened(Currency::Dollars, &[1, 499]);
    let mut out = lending::lent(1_005 * 94);
    let length = session.extract(499, &records.concat(), &mut out);
    assert_eq!(length, Ok(1_005 * 94));
    let sums = "0010010009998999000000001001000000000000";
    let controls = [
        batch_control(sums, "05010001", "0000001"),
        file_control(&format!("00000100010100{sums}")),
    ];
    let written = lending::lines(&out[1_003 * 94..]);
    assert_eq!(written, lending::lines(&controls.concat()));
}

#[test]
fn a_buffer_too_short_stays_as_it_is() {
    let file = named_listing().concat();
    for room in [0, 1, 93, 94, 188, 376, 468, 469] {
        refuses(&four(), 402, &file, room, 206, 0);
    }
    refuses(&four(), 404, &file, 187, 206, 0);
    refuses(&four(), 401, &file, 563, 206, 0);
}

#[test]
fn numbers_of_nobody() {
    let file = named_listing().concat();
    let cut = [16, 32, 63].map(|bits| 402 + (1 << bits));
    let strange = [0, 500, 902, 999, u64::MAX];
    // With everybody listed, only the number itself can be at fault.
    let everybody: Vec<u64> = (1..=499).collect();
    for session in [four(), opened(Currency::Pesos, &everybody)] {
        for entity in strange.into_iter().chain(cut) {
            refuses(&session, entity, &file, 940, 208, 0);
        }
    }
    for entity in [1, 400, 405, 499] {
        refuses(&four(), entity, &file, 940, 208, 0);
    }
}

#[test]
fn ends_of_the_roster() {
    let file = named_listing().concat();
    let session = opened(Currency::Pesos, &[1, 499, 401, 402, 403]);
    for (entity, digits) in [(1, "0001"), (499, "0499")] {
        let expected = FOR_404.concat().replacen("0404", digits, 1);
        gives(&session, entity, &file, expected.as_bytes());
    }
}

/// 208, then the reading's refusals, then 206.
#[test]
fn the_order_of_refusals() {
    let mut records = named_listing();
    put(&mut records[2], 30, "0000000000");
    let bad = records.concat();
    for room in [0, 469, 940] {
        refuses(&four(), 402, &bad, room, 19, 2);
        refuses(&four(), 402, &bad[..187], room, 201, 0);
        refuses(&four(), 405, &bad, room, 208, 0);
        refuses(&four(), 0, &bad[..187], room, 208, 0);
        refuses(&four(), 500, &[], room, 208, 0);
        refuses(&four(), 402, &[], room, 201, 0);
    }
    // A fault in a record that goes to somebody else, and at the very end.
    refuses(&four(), 403, &bad, 940, 19, 2);
    let mut records = named_listing();
    put(&mut records[9], 2, "000003");
    refuses(&four(), 402, &records.concat(), 940, 17, 9);
    // A destination that is not on the roster, whoever asks.
    let without = opened(Currency::Pesos, &[401, 402, 404]);
    refuses(&without, 402, &named_listing().concat(), 940, 204, 3);
}

#[test]
fn after_a_refused_opening_nobody_is_listed() {
    let mut records = named_listing();
    put(&mut records[0], 24, "000101");
    for (date, entities) in [(230_229, [401, 402, 403]), (101, [401, 402, 500])] {
        let (answer, session) = Session::open(date, Currency::Pesos, &entities);
        assert!(answer.is_err());
        refuses(&session, 402, &records.concat(), 940, 208, 0);
    }
}

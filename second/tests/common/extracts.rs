//! An extract for 402 written by hand: an order, a rejection with a text, one without, a reversal.

use super::*;

/// Places of its records.
pub const HEADER: usize = 0;
pub const FIRST_BATCH: usize = 1;
pub const ORDER: usize = 2;
pub const REJECTION: usize = 3;
pub const WITH_TEXT: usize = 4;
pub const SECOND_BATCH: usize = 6;
pub const WITHOUT_TEXT: usize = 8;
pub const CONCEPT: usize = 10;
pub const FILE_CONTROL: usize = 12;
pub const RECORDS: usize = 13;

/// 36-79 of the additional record that has a text.
pub const TEXT: &str = "INSUFFICIENT FUNDS ON THE DAY OF CLEARING  .";

/// Those of the session in which it was made.
pub fn members() -> Rules {
    let mut rules = rules(Currency::Pesos);
    rules.roster = std::array::from_fn(|entity| (401..=404).contains(&entity));
    rules
}

pub fn handed_header() -> Record {
    let mut header = header("04010001");
    put(&mut header, 4, " 040200000 000000010");
    header
}

pub fn motive(number: &str, text: &str, counter: &str) -> Record {
    record(&[
        (1, "799R"),
        (5, number),
        (7, "040200010000009"),
        (28, "00000000"),
        (36, text),
        (80, counter),
    ])
}

pub fn handed() -> Vec<Record> {
    vec![
        handed_header(),
        batch_header("04010001", "0000001"),
        individual("37", "04020001", "0000012500", "000", "040100010000001"),
        individual("36", "04029999", "0000001000", "001", "040100010000004"),
        motive("02", TEXT, "040100010000004"),
        batch_control(
            "0000030008050000000000013500000000000000",
            "04010001",
            "0000001",
        ),
        batch_header("04030002", "0000002"),
        individual("31", "04020000", "0000000007", "001", "040300020000009"),
        motive("17", "", "040300020000009"),
        individual("32", "04020402", "0000000050", "001", "040300020000010"),
        record(&[(1, "705"), (84, "0001"), (88, "0000010")]),
        batch_control(
            "0000040008040402000000000000000000000057",
            "04030002",
            "0000002",
        ),
        file_control("000002000002000000070016090402000000013500000000000057"),
    ]
}

/// The extract with another text from this position of a record on.
pub fn handed_with(place: usize, from: usize, text: &str) -> Vec<u8> {
    let mut records = handed();
    put(&mut records[place], from, text);
    records.concat()
}

//! The marked cases of document 01 that concern the reading, and its listing.

mod common;

use common::*;
use second::{read, Currency, Refusal, Rules};

/// Case L with one change, read in pesos.
fn says(place: usize, from: usize, text: &str) -> Result<usize, Refusal> {
    answer(&rules(Currency::Pesos), &changed(place, from, text))
}

#[test]
fn case_1_header_and_control_only() {
    let file = empty_file("04010001");
    assert_eq!(read(&rules(Currency::Pesos), &file), Ok(2));
}

#[test]
fn listing_is_accepted() {
    assert_eq!(answer(&rules(Currency::Pesos), &listing()), Ok(10));
}

#[test]
fn case_4_amount_of_zeros() {
    assert_eq!(says(2, 30, "0000000000"), refused(19, 2));
}

#[test]
fn case_5_amount_with_a_blank() {
    for blanked in 30..=39 {
        assert_eq!(says(2, blanked, " "), refused(19, 2));
    }
}

#[test]
fn case_6_amount_of_one_cent() {
    let mut records = changed(2, 30, "0000000001");
    put(&mut records[4], 21, "000000040001");
    put(&mut records[9], 32, "000000040001");
    assert_eq!(answer(&rules(Currency::Pesos), &records), Ok(10));
}

#[test]
fn case_7_dates() {
    for (text, date) in [("000229", 229), ("240229", 240_229), ("230229", 230_229)] {
        let expected = |place| match date {
            230_229 => refused(75, place),
            _ => Ok(10),
        };
        let rules = Rules {
            date,
            ..rules(Currency::Pesos)
        };
        assert_eq!(answer(&rules, &changed(0, 24, text)), expected(0));
        assert_eq!(says(1, 70, text), expected(1));
    }
}

#[test]
fn case_8_characters() {
    let good = b" !#$%()*+,-./0123456789:;<=>?@ABCDEFGHIJKLMNOPQRSTUVWXYZ_";
    for byte in 0..=255 {
        let mut records = listing();
        // 94 of the file header is free.
        records[0][93] = byte;
        let expected = if good.contains(&byte) {
            Ok(10)
        } else {
            refused(17, 0)
        };
        assert_eq!(answer(&rules(Currency::Pesos), &records), expected);
    }
}

#[test]
fn case_9_entities() {
    for value in 0..10_000 {
        let file = empty_file(&format!("{value:04}0001"));
        let (pesos, dollars) = match value {
            1..=499 => (Ok(2), refused(203, 0)),
            501..=999 => (refused(203, 0), Ok(2)),
            _ => (refused(17, 0), refused(17, 0)),
        };
        assert_eq!(read(&rules(Currency::Pesos), &file), pesos);
        assert_eq!(read(&rules(Currency::Dollars), &file), dollars);
    }
}

#[test]
fn case_10_flag_then_batch_control() {
    let mut records = listing();
    records.remove(7);
    assert_eq!(answer(&rules(Currency::Pesos), &records), refused(25, 7));
}

#[test]
fn case_11_reversal_with_01() {
    assert_eq!(says(6, 77, "01"), refused(87, 6));
}

#[test]
fn case_12_empty_batch() {
    let mut records = listing();
    records.drain(2..4);
    assert_eq!(answer(&rules(Currency::Pesos), &records), refused(17, 2));
}

#[test]
fn lengths() {
    let (rules, file) = (rules(Currency::Pesos), listing().concat());
    for length in [0, 1, 93, 94, 187, 189, 939] {
        assert_eq!(read(&rules, &file[..length]), refused(201, 0));
    }
    assert_eq!(read(&rules, &file[..188]), refused(17, 2));
    let blanks = vec![b' '; 940_094];
    assert_eq!(read(&rules, &blanks), refused(201, 0));
    assert_eq!(read(&rules, &blanks[..940_000]), refused(17, 0));
}

#[test]
fn control_total_keeps_its_last_ten_digits() {
    let rules = rules(Currency::Dollars);
    let mut records = destinations_over_ten_digits();
    assert_eq!(answer(&rules, &records), Ok(1_005));
    put(&mut records[1_003], 11, "1009998999");
    assert_eq!(answer(&rules, &records), refused(17, 1_003));
}

//! The company's file: a small one written out by hand from 004's table, each field, each refusal and their order.

mod common;

use common::companies::*;
use second::Currency::{Dollars, Pesos};

#[test]
fn a_file_in_pesos() {
    makes(Pesos, &lo(), &file(), &TRAY.concat());
}

/// 500 is added to the entity of each order; the LO body stays as it was lent.
#[test]
fn a_file_in_dollars() {
    let mut records = records();
    put(&mut records[0], 114, "82");
    put(&mut records[1], 114, "82");
    let tray = TRAY
        .concat()
        .replacen("IN63702850999", "IN63707850999", 1)
        .replacen("IN63704010001", "IN63709010001", 1);
    makes(Dollars, &lo(), &records.concat(), &tray);
    refuses(Pesos, &lo(), &records.concat(), 203, 0);
    refuses(Dollars, &lo(), &file(), 203, 0);
}

#[test]
fn a_closing_record_alone() {
    let closing = record(&[(1, "T"), (2, &"0".repeat(24)), (104, "0000000000")]);
    makes(Pesos, &lo(), &closing, TRAY[0]);
    makes(Dollars, &lo(), &closing, TRAY[0]);
    // No detail asks for its date.
    makes(
        Pesos,
        &lo_with(70, "      "),
        &closing,
        &TRAY[0].replacen("250630", "      ", 1),
    );
    refuses(Pesos, &lo(), &records()[0], 17, 0);
    refuses(Pesos, &lo(), &[b' '; 250], 17, 0);
}

/// Of the LO body only its length, its type and its tail are judged; its bytes go into the tray as they are.
#[test]
fn an_lo_body_is_not_read() {
    let mut lo = [0xe9; 94];
    put(&mut lo, 1, "5");
    put(&mut lo, 70, "250630");
    put(&mut lo, 88, "0000000");
    let mut tray: Vec<u8> = TRAY.concat().into_bytes();
    tray[2..96].copy_from_slice(&lo);
    for order in 1..3 {
        tray[96 * order + 81..96 * order + 89].fill(0xe9);
    }
    makes_bytes(Pesos, &lo, &file(), &tray);
}

/// All positions that the request does not name, in any bytes.
#[test]
fn fields_not_named_are_not_judged() {
    let in_details = (2..=25).chain(42..=44).chain(81..=88).chain(116..=250);
    let in_closing = (26..=103).chain(114..=250);
    for byte in [0, b' ', b'0', b'9', b'a', b'"', 255] {
        let mut records = records();
        for position in in_details.clone() {
            records[0][position - 1] = byte;
            records[1][position - 1] = byte;
        }
        for position in in_closing.clone() {
            records[2][position - 1] = byte;
        }
        makes(Pesos, &lo(), &records.concat(), &TRAY.concat());
    }
}

#[test]
fn lengths_are_201() {
    for length in [0, 1, 94, 249, 251, 499, 501, 749, 751, 1_001] {
        let file: Vec<u8> = file().into_iter().cycle().take(length).collect();
        refuses(Pesos, &lo(), &file, 201, 0);
        refuses(Pesos, &lo()[..93], &file, 201, 0);
        refuses(Pesos, &[], &file, 201, 0);
    }
    let lines: Vec<u8> = records()
        .iter()
        .flat_map(|line| [line, &b"\n"[..]].concat())
        .collect();
    refuses(Pesos, &lo(), &lines, 201, 0);
}

/// What building refuses by 207 of an LO, whatever stands in the file.
#[test]
fn lo_bodies_are_207() {
    for length in [0, 1, 75, 93, 95, 96, 188] {
        let lo: Vec<u8> = lo().into_iter().cycle().take(length).collect();
        refuses(Pesos, &lo, &file(), 207, 0);
    }
    for byte in (0..=255).filter(|&byte| byte != b'5') {
        let mut lo = lo();
        lo[0] = byte;
        refuses(Pesos, &lo, &file(), 207, 0);
        refuses(Pesos, &lo, &[byte; 500], 207, 0);
    }
    for position in 88..=94 {
        for byte in (0..=255).filter(|&byte| byte != b'0') {
            let mut lo = lo();
            lo[position - 1] = byte;
            refuses(Pesos, &lo, &file(), 207, 0);
        }
    }
}

#[test]
fn a_detail_is_d() {
    for byte in (0..=255).filter(|&byte| byte != b'D') {
        for place in 0..2 {
            let mut records = records();
            records[place][0] = byte;
            refuses(Pesos, &lo(), &records.concat(), 17, place);
        }
    }
}

/// Eight and fourteen digits; the eighth of block 1 goes nowhere.
#[test]
fn blocks_are_digits() {
    for position in (34..=41).chain(45..=58) {
        for byte in (0..=255).filter(|byte: &u8| !byte.is_ascii_digit()) {
            let mut records = records();
            records[1][position - 1] = byte;
            refuses(Pesos, &lo(), &records.concat(), 17, 1);
        }
    }
    for digit in b'0'..=b'9' {
        let mut records = records();
        records[1][40] = digit;
        makes(Pesos, &lo(), &records.concat(), &TRAY.concat());
    }
}

#[test]
fn entities_are_1_to_499() {
    for currency in [Pesos, Dollars] {
        for entity in 0..1_000 {
            let mut records = in_currency(currency);
            put(&mut records[0], 34, &format!("{entity:03}"));
            match entity {
                1..=499 => accepts(currency, &lo(), &records.concat(), 288),
                _ => refuses(currency, &lo(), &records.concat(), 17, 0),
            }
        }
    }
}

/// Client 59-80 and reference 89-103: the 57 characters of 01, and one at least that is no blank.
#[test]
fn texts_are_of_characters() {
    for (from, to) in [(59, 80), (89, 103)] {
        for position in from..=to {
            for byte in 0..=255 {
                let mut records = records();
                records[1][from - 1..to].fill(b' ');
                records[1][position - 1] = byte;
                match byte {
                    b'!' | b'#' | b'$' | b'%' | b'('..=b'Z' | b'_' => {
                        accepts(Pesos, &lo(), &records.concat(), 288)
                    }
                    _ => refuses(Pesos, &lo(), &records.concat(), 17, 1),
                }
            }
        }
    }
}

#[test]
fn field_13_is_the_currency() {
    for code in 0..100 {
        let mut records = records();
        put(&mut records[1], 114, &format!("{code:02}"));
        match code {
            80 => accepts(Pesos, &lo(), &records.concat(), 288),
            _ => refuses(Pesos, &lo(), &records.concat(), 203, 1),
        }
    }
    for code in ["  ", "8 ", " 8", "0 ", "AR"] {
        refuses(Pesos, &lo(), &with(0, 114, code), 203, 0);
    }
}

#[test]
fn amounts_are_ten_digits_and_not_zero() {
    let bad = [
        "0000000000",
        "          ",
        "       100",
        "100       ",
        "+000000100",
        "-000000100",
        "00000001.0",
        "00000001,0",
        "000000010O",
        "00000000 0",
    ];
    for amount in bad {
        refuses(Pesos, &lo(), &with(1, 104, amount), 19, 1);
    }
    for amount in [1, 12_500, 9_999_999_999_u64] {
        let mut records = [records()[0], closing(1, &format!("{amount:010}"))];
        put(&mut records[0], 104, &format!("{amount:010}"));
        accepts(Pesos, &lo(), &records.concat(), 192);
    }
}

/// ddmmaaaa, a date of 01 and the LO body's.
#[test]
fn due_dates_are_the_lo_bodys() {
    let good = [
        ("000229", "29022000"),
        ("240229", "29022024"),
        ("960229", "29022096"),
        ("000101", "01012000"),
        ("991231", "31122099"),
        ("250430", "30042025"),
    ];
    for (of_lo, of_detail) in good {
        accepts(Pesos, &lo_with(70, of_lo), &due(of_detail), 288);
    }
    let bad = [
        ("230229", "29022023"),
        ("250229", "29022025"),
        ("000230", "30022000"),
        ("250431", "31042025"),
        ("251301", "01132025"),
        ("250001", "01002025"),
        ("250600", "00062025"),
        ("250632", "32062025"),
        ("000229", "29021900"),
        ("000229", "29022100"),
        ("000101", "01012100"),
        ("991231", "31121999"),
        ("250630", "30061925"),
        ("250630", "30062125"),
        ("250630", "30060025"),
        ("250630", "3006  25"),
        ("250630", "06302025"),
        ("250630", "20250630"),
        ("250630", "25063020"),
        ("250630", "29062025"),
        ("250630", "30072025"),
        ("250630", "30062026"),
        ("250630", "        "),
        ("      ", "    20  "),
        ("      ", "        "),
        ("250 30", "30 02025"),
        ("25063O", "3O062025"),
    ];
    for (of_lo, of_detail) in bad {
        refuses(Pesos, &lo_with(70, of_lo), &due(of_detail), 75, 0);
    }
    refuses(Pesos, &lo(), &with(1, 26, "29062025"), 75, 1);
}

/// One after the other is put right, at the later record first at fault.
#[test]
fn the_order_within_a_detail() {
    let faults = [
        (1, "T", 17),
        (40, "X", 17),
        (58, " ", 17),
        (34, "500", 17),
        (89, "               ", 17),
        (59, "&", 17),
        (114, "82", 203),
        (104, "0000000000", 19),
        (26, "01072025", 75),
    ];
    let good = records();
    let mut bad = good.clone();
    for (from, text, _) in faults {
        put(&mut bad[1], from, text);
    }
    put(&mut bad[2], 1, "D");
    for (from, text, number) in faults {
        refuses(Pesos, &lo(), &bad.concat(), number, 1);
        let right = &good[1][from - 1..from - 1 + text.len()];
        bad[1][from - 1..from - 1 + text.len()].copy_from_slice(right);
    }
    refuses(Pesos, &lo(), &bad.concat(), 17, 2);
    bad[2] = good[2];
    makes(Pesos, &lo(), &bad.concat(), &TRAY.concat());
}

/// The first record that has a fault is the answer, whatever its fault.
#[test]
fn the_order_of_records() {
    let mut records = records();
    put(&mut records[1], 1, "T");
    put(&mut records[0], 26, "01072025");
    refuses(Pesos, &lo(), &records.concat(), 75, 0);
    put(&mut records[0], 104, "0000000000");
    refuses(Pesos, &lo(), &records.concat(), 19, 0);
}

//! Building and stripping: case L, written out by hand, and each refusal with its place.

mod common;

use common::trays::*;
use common::{rules, IN_DOLLARS};
use second::{read, strip, Currency};

#[test]
fn case_l_from_its_tray_and_back() {
    builds(&listed(), header(), &tray().concat(), &file().concat());
    strips(&listed(), &file().concat(), &tray().concat());
    assert_eq!(read(&listed(), &file().concat()), Ok(10));
}

/// Header and file control only.
#[test]
fn an_empty_tray() {
    let file = [FILE[0], NOTHING].concat().into_bytes();
    builds(&listed(), header(), &[], &file);
    strips(&listed(), &file, &[]);
    for room in [0, 1, 93, 187] {
        stays(header(), &[], room, 206, 0);
    }
}

/// The tray says nothing of other numbers and of free control positions; all other positions come back.
#[test]
fn other_numbers_are_lost_in_the_tray() {
    let mut records = file();
    let batches = [(1, 7), (4, 7), (5, 0), (8, 0)];
    let individuals = [(2, 5), (3, 9), (6, 9_999_999), (7, 9_999_999)];
    for (place, number) in batches.into_iter().chain(individuals) {
        put_text(&mut records[place], 87, &format!("{number:07}"));
    }
    put_text(&mut records[4], 54, "FREE POSITIONS 55 TO 79..");
    let filled = "FREE POSITIONS 56 TO 94................";
    put_text(&mut records[9], 55, filled);
    strips(&listed(), &records.concat(), &tray().concat());
}

#[test]
fn free_positions_of_headers_and_additionals_stay() {
    let (mut records, mut tray) = (file(), tray());
    put_text(&mut records[5], 20, "DISCRETIONARY");
    put_text(&mut tray[3], 22, "DISCRETIONARY");
    put_text(&mut records[7], 3, "CONCEPT");
    put_text(&mut tray[5], 5, "CONCEPT");
    let mut header = header().to_vec();
    put_text(&mut header, 86, "REFER 01");
    records[0] = header.clone();
    builds(&listed(), &header, &tray.concat(), &records.concat());
    strips(&listed(), &records.concat(), &tray.concat());
}

/// 80-94 of a 99 repeat those of its individual record, which get their number in building.
#[test]
fn a_rejection_and_its_motive() {
    let (mut records, mut tray) = (file(), tray());
    put_text(&mut records[6], 1, "31");
    put_text(&mut tray[4], 3, "31");
    let motive = "799R02040100010000009      00000000                                            ";
    records[7] = format!("{motive}040300020000003").into_bytes();
    tray[5] = format!("AD{motive}040300020000000").into_bytes();
    builds(&listed(), header(), &tray.concat(), &records.concat());
    strips(&listed(), &records.concat(), &tray.concat());
}

#[test]
fn lengths_are_207_at_0() {
    let tray = tray().concat();
    for length in [0, 1, 93, 95, 96, 188, 940] {
        let header: Vec<u8> = FILE.concat().bytes().take(length).collect();
        for room in [0, 940] {
            stays(&header, &tray, room, 207, 0);
            stays(&header, &[], room, 207, 0);
        }
    }
    for length in (1..=95).chain([97, 191, 575]) {
        stays(header(), &tray[..length], 940, 207, 0);
    }
}

#[test]
fn marks_and_kinds_are_207_at_their_record() {
    for (place, line) in TRAY.iter().enumerate() {
        let strange = [
            "LO6", "LO7", "IN5", "IN7", "AD5", "AD6", "LO1", "IN8", "AD9", "IO6", "LN5", "AO7",
            "OL5", "lo5", "  5", "LO ", "1N6", "AD0", "L06",
        ];
        for name in strange {
            let tray = tray_with(place, 0, name.as_bytes());
            stays(header(), &tray, 940, 207, place);
        }
        for index in 0..3 {
            let old = line.as_bytes()[index];
            for byte in (0..=255).filter(|&byte| byte != old) {
                let tray = tray_with(place, index, &[byte]);
                stays(header(), &tray, 940, 207, place);
            }
        }
    }
}

#[test]
fn tails_are_207_at_their_record() {
    for place in 0..6 {
        for index in 89..96 {
            for byte in (0..=255).filter(|&byte| byte != b'0') {
                let tray = tray_with(place, index, &[byte]);
                stays(header(), &tray, 940, 207, place);
            }
        }
    }
    // Position 87 is no part of the tail: a sender of other digits is for the reading.
    let tray = tray_with(1, 88, b"2");
    blanks(&listed(), header(), &tray, 940, 27, 2);
}

#[test]
fn of_several_faults_of_form_the_first_counts() {
    let mut tray = tray();
    put_text(&mut tray[4], 0, "XX");
    put_text(&mut tray[2], 95, "1");
    stays(header(), &tray.concat(), 940, 207, 2);
    stays(&header()[1..], &tray.concat(), 940, 207, 0);
    tray.push(b"L".to_vec());
    stays(header(), &tray.concat(), 940, 207, 0);
}

/// A header of which nothing is good has its form all the same.
#[test]
fn a_header_body_is_judged_by_the_reading() {
    for byte in [0, b' ', b'5', b'9', 255] {
        blanks(&listed(), &[byte; 94], &tray().concat(), 940, 17, 0);
        blanks(&listed(), &[byte; 94], &[], 188, 17, 0);
    }
    let mut header = header().to_vec();
    put_text(&mut header, 23, "250629");
    blanks(&listed(), &header, &tray().concat(), 940, 75, 0);
}

#[test]
fn the_reading_answers_at_its_own_places() {
    let places = [1, 2, 3, 5, 6, 7];
    for (place, in_file) in places.into_iter().enumerate() {
        let tray = tray_with(place, 3, b"&");
        blanks(&listed(), header(), &tray, 940, 17, in_file);
    }
    let changes = [
        (0, 70, "250631", 75, 1),
        (3, 80, "0400", 204, 5),
        (1, 4, "0902", 203, 2),
        (1, 4, "040 ", 17, 2),
        (1, 12, "1", 77, 2),
        (2, 29, " ", 78, 3),
        (4, 30, "0000000000", 19, 6),
        (4, 30, "         1", 19, 6),
        (4, 30, "00000A0000", 19, 6),
        (1, 40, "               ", 79, 2),
        (4, 77, "01", 87, 6),
        (1, 79, "1", 25, 3),
        (5, 2, "99", 25, 7),
        (4, 80, "0401", 27, 6),
    ];
    for (place, from, text, number, in_file) in changes {
        // Positions of the body.
        let tray = tray_with(place, from + 1, text.as_bytes());
        blanks(&listed(), header(), &tray, 940, number, in_file);
    }
}

#[test]
fn dollars_add_500() {
    let (file, rules) = (IN_DOLLARS.file(), rules(Currency::Dollars));
    let mut tray = vec![0; 3 * 96];
    assert_eq!(strip(&rules, &file, &mut tray), Ok(3 * 96));
    builds(&rules, &file[..94], &tray, &file);
    let in_pesos = common::rules(Currency::Pesos);
    blanks(&in_pesos, &file[..94], &tray, 6 * 94, 203, 0);
}

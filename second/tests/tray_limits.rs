//! Building and stripping: orders of records, limits, and the order of refusals.

mod common;

use common::lending::lent;
use common::trays::*;
use second::{build, read, Currency, Session};

#[test]
fn orders_that_no_file_has() {
    let lines = tray();
    let of = |places: &[usize]| -> Vec<u8> {
        let records = places.iter().map(|&place| lines[place].as_slice());
        records.collect::<Vec<_>>().concat()
    };
    let refuses = |places: &[usize], records: usize, number: u16, place: usize| {
        let (rules, tray) = (listed(), of(places));
        blanks(&rules, header(), &tray, 94 * records, number, place);
    };
    // LO alone, and LO LO: a 5, then an 8.
    refuses(&[0], 4, 17, 2);
    refuses(&[0, 0, 1], 7, 17, 2);
    refuses(&[0, 1, 3], 7, 17, 5);
    // IN or AD before LO; without any LO there is no batch control.
    refuses(&[1], 3, 17, 1);
    refuses(&[5], 3, 17, 1);
    refuses(&[1, 0, 1], 6, 17, 1);
    refuses(&[5, 0, 1], 6, 17, 1);
    refuses(&[1, 2], 4, 17, 1);
    // AD before IN, twice, surplus, missing at a control and before an IN.
    refuses(&[0, 5, 1], 6, 17, 2);
    refuses(&[3, 4, 5, 5], 7, 25, 4);
    refuses(&[0, 1, 5], 6, 25, 3);
    refuses(&[3, 4], 5, 25, 3);
    refuses(&[3, 4, 4, 5], 7, 25, 3);
    refuses(&[3, 4, 0, 1], 8, 25, 3);
}

fn repeated(line: &str, times: usize) -> Vec<u8> {
    line.as_bytes().repeat(times)
}

/// 2 + 1 + 1 + 9,996 records are 10,000; one order more is too many.
#[test]
fn more_than_10000_records_are_201() {
    let orders = |count| [repeated(TRAY[0], 1), repeated(TRAY[1], count)].concat();
    let mut out = lent(940_001);
    let answer = build(&listed(), header(), &orders(9_996), &mut out);
    assert_eq!(answer, Ok(940_000));
    assert_eq!(read(&listed(), &out[..940_000]), Ok(10_000));
    // The last counter, the entries, and a total of 40,183,929,996 and its last ten digits.
    assert_eq!(&out[94 * 9_997 + 87..94 * 9_998], b"0009996");
    let control = &out[94 * 9_998..94 * 9_999];
    assert_eq!(&control[4..44], b"0099960183929996000124950000000000000000");
    for count in [9_997, 9_998, 30_000, 200_000] {
        for room in [0, 940_000, 940_094] {
            stays(header(), &orders(count), room, 201, 0);
        }
    }
}

/// Each LO brings a control with it, and IN and AD none.
#[test]
fn controls_count_towards_10000_records() {
    for (line, most, place) in [(0, 4_999, 2), (1, 9_998, 1), (5, 9_998, 1)] {
        let [full, too_many] = [most, most + 1].map(|times| repeated(TRAY[line], times));
        blanks(&listed(), header(), &full, 940_000, 17, place);
        stays(header(), &too_many, 940_000, 201, 0);
    }
}

#[test]
fn amount_sums_of_thirteen_digits_match_no_field() {
    let largest = TRAY[1].replacen("0000012500", "9999999999", 1);
    let orders = |count| [repeated(TRAY[0], 1), repeated(&largest, count)].concat();
    let mut out = lent(104 * 94);
    let answer = build(&listed(), header(), &orders(100), &mut out);
    assert_eq!(answer, Ok(104 * 94));
    blanks(&listed(), header(), &orders(101), 105 * 94, 17, 103);
    blanks(&listed(), header(), &orders(9_996), 940_000, 17, 9_998);
    // Each batch within twelve digits, the file not: the file control is at fault.
    let both = [orders(60), orders(60)].concat();
    blanks(&listed(), header(), &both, 126 * 94, 17, 125);
}

/// 207, 201, 206, then the reading.
#[test]
fn the_order_of_refusals() {
    let mut bad = tray();
    put_text(&mut bad[1], 31, "0000000000");
    for room in [0, 1, 93, 188, 939] {
        stays(header(), &tray().concat(), room, 206, 0);
        stays(header(), &bad.concat(), room, 206, 0);
    }
    blanks(&listed(), header(), &bad.concat(), 940, 19, 2);
    let long = bad.concat().repeat(2_000);
    stays(header(), &long, 0, 201, 0);
    stays(header(), &long, 940_000, 201, 0);
    let mut broken = long.clone();
    let last = broken.len() - 1;
    broken[last] = b' ';
    stays(header(), &broken, 0, 207, 11_999);
    stays(header(), &broken[..last], 0, 207, 0);
    stays(&header()[..93], &long, 0, 207, 0);
    bad[5][95] = b'9';
    stays(header(), &bad.concat(), 0, 207, 5);
}

#[test]
fn stripping_reads_first() {
    let rules = listed();
    let mut bad = file();
    put_text(&mut bad[2], 29, "0000000000");
    for room in [0, 575, 576, 1_000] {
        no_strip(&rules, &bad.concat(), room, 19, 2);
        no_strip(&rules, &bad.concat()[..939], room, 201, 0);
        no_strip(&rules, &bad.concat()[..94], room, 201, 0);
        no_strip(&rules, &[], room, 201, 0);
    }
    for room in [0, 1, 93, 96, 575] {
        no_strip(&rules, &file().concat(), room, 206, 0);
    }
    let mut bad = file();
    put_text(&mut bad[9], 54, "1");
    no_strip(&rules, &bad.concat(), 1_000, 17, 9);
}

/// The session of 000101, pesos, nobody.
#[test]
fn after_a_refused_opening() {
    let (answer, session) = Session::open(250_631, Currency::Dollars, &[401]);
    assert!(answer.is_err());
    let rules = session.rules();
    blanks(rules, header(), &tray().concat(), 940, 75, 0);
    no_strip(rules, &file().concat(), 1_000, 75, 0);
    let mut header = header().to_vec();
    put_text(&mut header, 23, "000101");
    blanks(rules, &header, &tray().concat(), 940, 204, 0);
    put_text(&mut header, 14, "0901");
    blanks(rules, &header, &[], 188, 203, 0);
}

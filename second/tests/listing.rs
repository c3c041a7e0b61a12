//! The listing, line by line as document 01 prints it.

mod common;

use common::*;
use second::generate::listing::generate_listing;
use second::listing as printed;

const NOBODY: &str = "ENTITY SENT RECEIVED NET\nSUM 0 0 0\n";
const TOO_LONG: &str = "REFUSED 201 AT 0\n";

fn text(input: &[u8]) -> String {
    String::from_utf8(printed(input)).expect("a listing is plain text")
}

#[test]
fn case_l_whole() {
    let expected = "ENTITY SENT RECEIVED NET\n\
                    401 2 1 60000\n\
                    402 0 1 -12500\n\
                    403 1 1 -47500\n\
                    SUM 3 3 0\n";
    assert_eq!(text(&listing().concat()), expected);
}

#[test]
fn nobody_sent_anything() {
    for origin in ["04010001", "05010001"] {
        assert_eq!(text(&empty_file(origin)), NOBODY);
    }
}

#[test]
fn ascending_by_number_in_dollars() {
    let single = Single {
        origin: "07000001",
        identifier: "0",
        sender: "09990001",
        code: "37",
        destination: "05010001",
        amount: 9_999_999_999,
    };
    let expected = "ENTITY SENT RECEIVED NET\n\
                    1 0 1 -9999999999\n\
                    499 1 0 9999999999\n\
                    SUM 1 1 0\n";
    assert_eq!(text(&single.file()), expected);
}

#[test]
fn one_that_only_sends_to_itself_is_printed() {
    let single = Single {
        origin: "00200001",
        identifier: "Z",
        sender: "00100001",
        code: "31",
        destination: "00100001",
        amount: 7,
    };
    let expected = "ENTITY SENT RECEIVED NET\n10 1 1 0\nSUM 1 1 0\n";
    assert_eq!(text(&single.file()), expected);
}

#[test]
fn refusals_are_one_line() {
    let file = changed(2, 30, "0000000000").concat();
    assert_eq!(text(&file), "REFUSED 19 AT 2\n");
    let file = listing().concat();
    assert_eq!(text(&file[..188]), "REFUSED 17 AT 2\n");
    let file = changed(6, 4, "0901").concat();
    assert_eq!(text(&file), "REFUSED 203 AT 6\n");
}

#[test]
fn any_length_ends_in_a_line() {
    let file = listing().concat();
    for length in [0, 1, 14, 17, 18, 28, 29, 33, 34, 93, 94, 187, 189, 939] {
        assert_eq!(text(&file[..length]), TOO_LONG, "{length}");
    }
    assert_eq!(text(&[b' '; 65_424]), "REFUSED 17 AT 0\n");
    for length in [65_423, 65_425, 65_518, 940_000, 940_094] {
        assert_eq!(text(&vec![b' '; length]), TOO_LONG, "{length}");
    }
}

/// 65,424 bytes are 696 records: 692 orders of one cent, and four others.
#[test]
fn the_longest_input() {
    let expected = "ENTITY SENT RECEIVED NET\n\
                    401 692 0 692\n\
                    402 0 692 -692\n\
                    SUM 692 692 0\n";
    // 692 times 4020001 is 2781840692.
    let file = batch_of(692, "0006922781840692000000000692000000000000");
    assert_eq!(file.len(), 65_424);
    assert_eq!(text(&file), expected);
    // 693 times 4020001 is 2785860693: a good file, but one record too long.
    let file = batch_of(693, "0006932785860693000000000693000000000000");
    assert_eq!(file.len(), 65_518);
    assert_eq!(text(&file), TOO_LONG);
}

fn batch_of(count: usize, sums: &str) -> Vec<u8> {
    let mut records = vec![header("04010001"), batch_header("04010001", "0000001")];
    records.extend(orders("04010001", "04020001", count));
    records.push(batch_control(sums, "04010001", "0000001"));
    records.push(file_control(&format!("00000100007000{sums}")));
    records.concat()
}

#[test]
fn the_date_is_the_headers() {
    let dated = |date: &str| {
        let mut file = empty_file("04010001");
        put(&mut file, 24, date);
        text(&file)
    };
    for date in ["000101", "000229", "991231", "230228"] {
        assert_eq!(dated(date), NOBODY);
    }
    for date in ["230229", "000000", "      ", "24022 ", "A00101", "001301"] {
        assert_eq!(dated(date), "REFUSED 75 AT 0\n", "{date}");
    }
}

#[test]
fn the_currency_is_the_origins() {
    let with_origin = |origin: &str| text(&changed(0, 15, origin).concat());
    for origin in ["0001", "0499"] {
        assert!(with_origin(origin).ends_with("\nSUM 3 3 0\n"));
    }
    // Dollars by the origin, so that the first sender is of the other currency.
    for origin in ["0501", "0999"] {
        assert_eq!(with_origin(origin), "REFUSED 203 AT 1\n");
    }
    for origin in ["0000", "0500", "1000", "    ", " 501", "05A1", "9999"] {
        assert_eq!(with_origin(origin), "REFUSED 17 AT 0\n", "{origin}");
    }
}

#[test]
fn generated_inputs_get_the_answers_meant() {
    for number in 0..1_600 {
        let case = generate_listing(3, number);
        let printed = text(&case.input);
        let individuals = || case.input.chunks(94).filter(|record| record[0] == b'6');
        let name = format!("listing {number}, {}", case.family);
        match case.meant {
            Some(Ok(_)) => {
                let count = individuals().count();
                let last = format!("\nSUM {count} {count} 0\n");
                assert!(printed.starts_with("ENTITY SENT RECEIVED NET\n"), "{name}");
                assert!(printed.ends_with(&last), "{name}: {printed}");
            }
            Some(Err(refusal)) => {
                let line = format!("REFUSED {} AT {}\n", refusal.number, refusal.place);
                assert_eq!(printed, line, "{name}");
            }
            None => {}
        }
        assert!(printed.ends_with('\n') && !printed.ends_with("\n\n"));
    }
}

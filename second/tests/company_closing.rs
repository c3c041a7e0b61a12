//! The company's file: its closing record, sums, sizes, and the room that is lent.

mod common;

use common::companies::*;
use second::company;
use second::Currency::{Dollars, Pesos};

#[test]
fn the_last_is_t() {
    for byte in (0..=255).filter(|&byte| byte != b'T') {
        let mut records = records();
        records[2][0] = byte;
        refuses(Pesos, &lo(), &records.concat(), 17, 2);
    }
    // A T amid the details is no end, and a file without one has none.
    let [one, two, closing] = [0, 1, 2].map(|place| records()[place]);
    refuses(Pesos, &lo(), &[one, closing, two].concat(), 17, 1);
    refuses(Pesos, &lo(), &[closing, one, two].concat(), 17, 0);
    refuses(Pesos, &lo(), &[one, two, closing, closing].concat(), 17, 2);
    refuses(Pesos, &lo(), &[one, two].concat(), 17, 1);
    refuses(Pesos, &lo(), &[one, two, one].concat(), 17, 2);
}

/// Every digit of fields 2, 3, 4 and 7.
#[test]
fn numbers_are_digits_in_their_width() {
    for position in (2..=25).chain(104..=113) {
        let right = records()[2][position - 1];
        for byte in (0..=255).filter(|&byte| byte != right) {
            let mut records = records();
            records[2][position - 1] = byte;
            refuses(Pesos, &lo(), &records.concat(), 17, 2);
        }
    }
    let wrong = [
        (2, "         2"),
        (2, "2         "),
        (2, "0000000003"),
        (2, "0000000001"),
        (2, "00000020000000002"),
        (12, "      2"),
        (12, "0000003"),
        (12, "0000001"),
        (19, "       "),
        (19, "0000001"),
        (19, "0000002"),
        (104, "     52500"),
        (104, "52500     "),
        (104, "0000052501"),
        (104, "0000052499"),
        (103, "0000052500"),
        (105, "0000052500"),
    ];
    for (from, text) in wrong {
        refuses(Pesos, &lo(), &with(2, from, text), 17, 2);
    }
}

/// A sum of eleven digits is in no field, not even by its last ten.
#[test]
fn sums_are_exact() {
    let of = |amounts: &[&str], sum: &str| {
        let mut file = Vec::new();
        for amount in amounts {
            let mut detail = records()[0];
            put(&mut detail, 104, amount);
            file.extend(detail);
        }
        file.extend(closing(amounts.len(), sum));
        file
    };
    let (largest, cent) = ("9999999999", "0000000001");
    accepts(Pesos, &lo(), &of(&[largest], largest), 192);
    accepts(Pesos, &lo(), &of(&["9999999998", cent], largest), 288);
    refuses(Pesos, &lo(), &of(&[largest, cent], "0000000000"), 17, 2);
    refuses(Pesos, &lo(), &of(&[largest, cent], "1000000000"), 17, 2);
    refuses(Pesos, &lo(), &of(&[largest, cent], largest), 17, 2);
    refuses(Pesos, &lo(), &of(&[largest, largest], "9999999998"), 17, 2);
    // Beyond 32 bits, and alike in their last 32.
    accepts(Pesos, &lo(), &of(&["4294967295", cent], "4294967296"), 288);
    refuses(
        Pesos,
        &lo(),
        &of(&["4294967295", cent], "0000000000"),
        17,
        2,
    );
}

#[test]
fn room_is_the_last_to_be_judged() {
    for room in [0, 1, 95, 96, 192, 287] {
        stays(Pesos, &lo(), &file(), room, 206, 0);
        stays(Pesos, &lo(), &with(2, 1, "D"), room, 17, 2);
        stays(Pesos, &lo(), &with(1, 26, "01072025"), room, 75, 1);
        stays(Pesos, &lo()[1..], &file(), room, 207, 0);
        stays(Pesos, &lo()[1..], &file()[1..], room, 201, 0);
    }
    let alone = closing(0, "0000000000");
    stays(Pesos, &lo(), &alone, 95, 206, 0);
}

/// There is no most: neither 10,000 records nor those of sixteen bits.
#[test]
fn many_details() {
    for details in [9_998, 10_000, 10_001, 65_536] {
        let mut file = records()[1].repeat(details);
        file.extend(closing(details, &format!("{:010}", 40_000 * details)));
        let mut out = vec![b'#'; 96 * (details + 1) + 1];
        let answer = company(Pesos, &lo(), &file, &mut out);
        assert_eq!(answer, Ok(96 * (details + 1)));
        assert_eq!(&out[96 * details..][..96], TRAY[2].as_bytes());
        assert_eq!(out[96 * (details + 1)], b'#');
        file[250 * (details - 1) + 103..][..10].fill(b'0');
        refuses(Pesos, &lo(), &file, 19, details - 1);
        refuses(Dollars, &lo(), &file, 203, 0);
    }
}

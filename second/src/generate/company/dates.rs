//! Due dates that are not the LO body's, and dates that are none.

use super::bytes::no_digit;
use super::draft::printed_due;
use crate::generate::draft::put;
use crate::generate::faults::NO_DATES;
use crate::generate::good::any_date;
use crate::generate::random::Random;

type Due = [u8; 8];

/// The right day and month in years that are none of 01, the last two digits right.
const CENTURIES: [&[u8; 2]; 10] = [
    b"19", b"19", b"21", b"21", b"00", b"  ", b"02", b"12", b"30", b"2 ",
];

/// Any eight bytes but this date.
pub fn other_due(random: &mut Random, due: &Due) -> Due {
    loop {
        let other = match random.below(8) {
            0 | 1 => of_other_century(random, due),
            2 => printed_due(format!("{:06}", any_date(random)).as_bytes()),
            3 => printed_due(pick_no_date(random)),
            4 => turned(random, due),
            5 => with_no_digit(random, due),
            6 => with_other_digit(random, due),
            _ => **random.pick(&[b"        ", b"00000000", b"00002000", b"99999999"]),
        };
        if other != *due {
            return other;
        }
    }
}

/// AAMMDD.
pub fn pick_no_date(random: &mut Random) -> &'static [u8] {
    let index = random.below(NO_DATES.len());
    NO_DATES[index]
}

fn of_other_century(random: &mut Random, due: &Due) -> Due {
    let mut other = *due;
    put(&mut other, 5, *random.pick(&CENTURIES));
    other
}

/// Month before day, year first, year of two digits.
fn turned(random: &mut Random, due: &Due) -> Due {
    let orders = [
        [2, 3, 0, 1, 4, 5, 6, 7],
        [4, 5, 6, 7, 2, 3, 0, 1],
        [6, 7, 2, 3, 0, 1, 4, 5],
        [0, 1, 2, 3, 6, 7, 4, 5],
        [6, 7, 2, 3, 4, 5, 0, 1],
    ];
    random.pick(&orders).map(|index: usize| due[index])
}

fn with_no_digit(random: &mut Random, due: &Due) -> Due {
    let mut other = *due;
    let index = random.below(8);
    // The same low half often, which is what a careless reader keeps of a digit.
    let alike = due[index] ^ *random.pick(b"\x10\x40\x80\x20");
    let no_digit = no_digit(random);
    other[index] = *random.pick(&[alike, no_digit, b' ']);
    other
}

fn with_other_digit(random: &mut Random, due: &Due) -> Due {
    let mut other = *due;
    other[random.below(8)] = random.digit();
    other
}

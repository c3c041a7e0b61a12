//! What a record takes in a longer file, by how much of its contents cannot be foretold.

use crate::measuring::{nanoseconds_a_record, Times, FILES, RECORDS, WARM_UP};
use crate::readers::{Asked, READERS};
use second::generate::good::{file_of, orders};
use second::generate::random::Random;
use second::generate::Draft;

const ROUNDS: usize = 100;

type Make = fn(&mut Random, usize) -> Draft;

const CONTENTS: [(&str, Make); 4] = [
    ("all at random", file_of),
    (
        "all at random but texts, which have no blank",
        without_blanks,
    ),
    ("orders alone", orders),
    (
        "orders alone, whose texts have no blank",
        orders_without_blanks,
    ),
];

pub fn run() {
    println!(
        "ns a record in {FILES} files each of some 1,000 and {RECORDS} records, by what they hold"
    );
    for (name, make) in CONTENTS {
        let (short, long) = (measure(1_000, make), measure(RECORDS, make));
        let said = READERS.iter().zip(short.iter().zip(long));
        let said =
            said.map(|((reader, _), (short, long))| format!("{reader} {short:.1} and {long:.1}"));
        println!("{name}: {}", said.collect::<Vec<String>>().join("; "));
    }
}

fn without_blanks(random: &mut Random, records: usize) -> Draft {
    filled(file_of(random, records))
}

fn orders_without_blanks(random: &mut Random, records: usize) -> Draft {
    filled(orders(random, records))
}

/// Positions 40-76 of the individual records are letters.
fn filled(mut draft: Draft) -> Draft {
    let individuals = draft.records.iter_mut().filter(|record| record[0] == b'6');
    individuals.for_each(|record| record[39..76].fill(b'A'));
    draft
}

fn measure(records: usize, make: Make) -> [f64; READERS.len()] {
    let mut times = Times::<{ READERS.len() }>::new();
    let mut read = 0;
    for number in 0..FILES {
        let draft = make(&mut Random::new(records as u64, number), records);
        read = draft.records.len();
        let asked = Asked::good(&draft);
        times.in_turn(WARM_UP, ROUNDS, |reader| asked.read_by(reader));
    }
    times.medians().map(|time| nanoseconds_a_record(time, read))
}

//! A country's day: 2,500,000 records in one session, on one core.

use crate::days::by_proved;
use crate::measuring::{nanoseconds_a_record, timed, RECORDS};
use second::generate::queue::{queue, Group};
use second::generate::random::Random;

const DAY: Group = Group {
    members: 10,
    files: 25,
    records: RECORDS,
};

/// A smaller one before it.
const WARM_UP: Group = Group { members: 2, ..DAY };

pub fn run() {
    assert!(by_proved(&queue(&mut Random::new(250, 0), &[WARM_UP])));
    let day = queue(&mut Random::new(250, 1), &[DAY]);
    let time = timed(|| by_proved(&day));
    let (files, records) = (day.ends().len(), day.bytes().len() / 94);
    println!(
        "a country's day, {records} records in {files} files, presented in one session on one core: \
         {:.3} s, {:.1} ns per record",
        time / 1e6,
        nanoseconds_a_record(time, records)
    );
}

//! Files of 10,000 records that are made to be slow, beside good ones of as many records.

use crate::counters::{falling_singles, refused_early};
use crate::measuring::{Times, FILES, RECORDS, WARM_UP};
use crate::readers::{Asked, READERS};
use second::generate::good::{file_of, smallest_batches};
use second::generate::random::Random;
use second::generate::Draft;
use second::Refusal;

const ROUNDS: usize = 60;

/// Header, individual record and control, so often: with two records besides, the most that a file takes.
const BATCHES: usize = 3_332;

/// Each reader once with the slow file and once with the good one.
const JOBS: usize = 2 * READERS.len();

pub fn run() {
    println!(
        "{FILES} files of each kind that are made to be slow, each beside a good file of as many records by the same reader; \
         the proved library should take at most 1.5 times a good file"
    );
    measure("a bad character at the very end", bad_character);
    measure("the file control wrong in its last field", wrong_control);
    measure("one individual record to a batch", single_records);
    measure("the same with counters that fall", falling_singles);
    measure(
        "counters that fall, refused in the third batch",
        refused_early,
    );
}

/// The last position of a file control is free, so that only the character is wrong.
fn bad_character(random: &mut Random) -> Asked {
    refused_at_last(file_of(random, RECORDS), 94, |_| b'^')
}

fn wrong_control(random: &mut Random) -> Asked {
    refused_at_last(file_of(random, RECORDS), 55, |digit| digit ^ 1)
}

/// The file with another byte at this position of its last record.
fn refused_at_last(mut draft: Draft, position: usize, change: impl Fn(u8) -> u8) -> Asked {
    let place = draft.records.len() - 1;
    let byte = &mut draft.records[place][position - 1];
    *byte = change(*byte);
    Asked::of(&draft, Err(Refusal { number: 17, place }))
}

fn single_records(random: &mut Random) -> Asked {
    Asked::good(&smallest_batches(random, BATCHES))
}

fn measure(name: &str, slow_file: fn(&mut Random) -> Asked) {
    let mut times = Times::<JOBS>::new();
    for number in 0..FILES {
        let slow = slow_file(&mut Random::new(RECORDS as u64, number));
        let records = slow.file.len() / 94;
        let good = Asked::good(&file_of(&mut Random::new(RECORDS as u64, number), records));
        let both = [slow, good];
        times.in_turn(WARM_UP, ROUNDS, |turn| both[turn % 2].read_by(turn / 2));
    }
    let medians = times.medians();
    let said = READERS.iter().zip(medians.as_chunks().0);
    let said = said.map(|((reader, _), [slow, good])| {
        let times = slow / good;
        format!("{reader} {slow:.2} us, {times:.2} times a good file")
    });
    println!("{name}: {}", said.collect::<Vec<String>>().join("; "));
}

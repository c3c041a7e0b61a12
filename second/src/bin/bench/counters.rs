//! Counters that ascend through the file, and counters that fall from batch to batch, in files that are the same otherwise.

use crate::measuring::{Times, FILES, RECORDS, SPEED_ROUNDS, WARM_UP};
use crate::readers::{Asked, PROVED, READERS};
use second::generate::good::{smallest_batches, Maker, MODEST};
use second::generate::numbering::{put_counter, HIGHEST};
use second::generate::random::Random;
use second::generate::Draft;
use second::Refusal;

/// Records of a file, and rounds that take about as long for each. Besides round numbers, those at which the proved reader takes larger
/// room to look through a file, and does so for the fewest records.
const SIZES: [(usize, usize); 9] = [
    (10, 2_000),
    (41, 1_500),
    (100, 1_000),
    (121, 1_000),
    (361, 600),
    (1_000, 300),
    (1_081, 300),
    (3_241, 150),
    (RECORDS, 60),
];

/// A batch has some so many records, where the file has enough.
const BATCH: usize = 25;

/// Where the upper range of two begins, but for 1.
const UPPER: u64 = 5_000_000;

/// Where it begins a multiple of a power of two above the lower one: a set that goes by remainders takes both for one.
const ALIGNED: u64 = 76 << 16;

/// Which individual record it is: its batch, its number there and among all, and how many there are.
struct Turn {
    batch: usize,
    in_batch: u64,
    number: u64,
    /// Of the same machine, where two take the batches in turn.
    of_machine: u64,
    all: u64,
}

struct Shape {
    name: &'static str,
    make: fn(&mut Random, usize) -> Draft,
    counter: fn(&Turn) -> u64,
    /// The shape whose counters ascend, by its index.
    beside: usize,
}

/// What was asked for: a file whose counters fall takes at most so many times one whose counters ascend.
const MOST: f64 = 1.6;

/// Shapes by their places.
const ASCENDING: usize = 0;
const TWO_MACHINES: usize = 1;
const FALLING_SINGLE: usize = 5;
const ASCENDING_SINGLE: usize = 6;

const SHAPES: [Shape; 7] = [
    Shape {
        name: "ascending through the file",
        make: even_batches,
        counter: |turn| turn.number,
        beside: ASCENDING,
    },
    Shape {
        name: "two machines, ranges of their own",
        make: even_batches,
        // The upper range comes first, so that two batches fall already.
        counter: |turn| turn.of_machine + if is_first(turn) { UPPER } else { 0 },
        beside: ASCENDING,
    },
    Shape {
        name: "two machines, ranges with the same remainders",
        make: even_batches,
        counter: |turn| turn.of_machine + if is_first(turn) { ALIGNED } else { 0 },
        beside: ASCENDING,
    },
    Shape {
        name: "two machines, odd and even numbers",
        make: even_batches,
        counter: |turn| 2 * turn.of_machine - if is_first(turn) { 0 } else { 1 },
        beside: ASCENDING,
    },
    Shape {
        name: "far apart, each batch across the whole range",
        make: even_batches,
        counter: |turn| turn.in_batch * (HIGHEST / BATCH as u64) - turn.batch as u64,
        beside: ASCENDING,
    },
    Shape {
        name: "one individual record to a batch, falling and far apart",
        make: single_records,
        counter: |turn| (turn.all + 1 - turn.number) * (HIGHEST / turn.all),
        beside: ASCENDING_SINGLE,
    },
    Shape {
        name: "one individual record to a batch, ascending",
        make: single_records,
        counter: |turn| turn.number,
        beside: ASCENDING_SINGLE,
    },
];

/// Each reader with each shape.
const JOBS: usize = READERS.len() * SHAPES.len();

pub fn run() {
    println!(
        "counters: {FILES} files of each shape, the same but for 88-94, by all readers in turn; each beside the file that ascends"
    );
    for (records, rounds) in SIZES {
        show(records, measure(records, rounds));
    }
}

/// The proved reading of full files that fall, beside those that ascend; whether it is fast enough.
pub fn is_fast() -> bool {
    let mut times = Times::<2>::new();
    for number in 0..FILES {
        let shapes = [&SHAPES[ASCENDING], &SHAPES[TWO_MACHINES]];
        let files = shapes.map(|shape| asked(shape, RECORDS, number));
        times.in_turn(WARM_UP, SPEED_ROUNDS, |turn| files[turn].read_by(PROVED));
    }
    let [ascending, falling] = times.medians();
    let ratio = falling / ascending;
    println!("speed: falling/ascending {ratio:.2}");
    if ratio > MOST {
        eprintln!("too slow: falling/ascending is above {MOST:.1}");
    }
    ratio <= MOST
}

/// A full file of one individual record to a batch, falling and far apart.
pub fn falling_singles(random: &mut Random) -> Asked {
    Asked::good(&numbered(&SHAPES[FALLING_SINGLE], random, RECORDS))
}

/// A full file that falls in its second batch, where all of it is looked at, and is refused at the third.
pub fn refused_early(random: &mut Random) -> Asked {
    let mut draft = numbered(&SHAPES[TWO_MACHINES], random, RECORDS);
    let place = draft.places(|record| record[0] == b'5')[2];
    draft.records[place][1] = b' ';
    Asked::of(&draft, Err(Refusal { number: 17, place }))
}

fn is_first(turn: &Turn) -> bool {
    turn.batch.is_multiple_of(2)
}

/// Batches of as many records as each other, two at the least.
fn even_batches(random: &mut Random, records: usize) -> Draft {
    let batches = (records / BATCH).max(2);
    let entries = records - 2 - 2 * batches;
    let mut maker = Maker::new(random);
    maker.amounts = MODEST;
    for batch in 0..batches {
        let (begin, end) = (entries * batch / batches, entries * (batch + 1) / batches);
        maker.batch(end - begin);
    }
    maker.finish()
}

fn single_records(random: &mut Random, records: usize) -> Draft {
    smallest_batches(random, (records - 2) / 3)
}

/// From the same numbers drawn, so that shapes share their contents.
fn asked(shape: &Shape, records: usize, number: u64) -> Asked {
    Asked::good(&numbered(
        shape,
        &mut Random::new(records as u64, number),
        records,
    ))
}

fn numbered(shape: &Shape, random: &mut Random, records: usize) -> Draft {
    let mut draft = (shape.make)(random, records);
    let places = draft.places(|record| matches!(record[0], b'5' | b'6'));
    let individuals = places
        .iter()
        .filter(|&&place| draft.records[place][0] == b'6');
    let mut turn = Turn {
        batch: 0,
        in_batch: 0,
        number: 0,
        of_machine: 0,
        all: individuals.count() as u64,
    };
    let (mut batches, mut taken) = (0, [0; 2]);
    for place in places {
        if draft.records[place][0] == b'5' {
            (turn.batch, turn.in_batch) = (batches, 0);
            batches += 1;
            continue;
        }
        turn.in_batch += 1;
        turn.number += 1;
        taken[turn.batch % 2] += 1;
        turn.of_machine = taken[turn.batch % 2];
        put_counter(&mut draft, place, (shape.counter)(&turn));
    }
    draft
}

fn measure(records: usize, rounds: usize) -> [f64; JOBS] {
    let mut times = Times::<JOBS>::new();
    for number in 0..FILES {
        let files = SHAPES.each_ref().map(|shape| asked(shape, records, number));
        times.in_turn(WARM_UP, rounds, |turn| {
            files[turn % SHAPES.len()].read_by(turn / SHAPES.len())
        });
    }
    times.medians()
}

fn show(records: usize, medians: [f64; JOBS]) {
    let readers: &[[f64; SHAPES.len()]] = medians.as_chunks().0;
    for (index, shape) in SHAPES.iter().enumerate() {
        let said = READERS.iter().zip(readers).map(|((reader, _), times)| {
            let (time, ratio) = (times[index], times[index] / times[shape.beside]);
            format!("{reader} {time:.2} us, {ratio:.2} times ascending")
        });
        let said = said.collect::<Vec<String>>().join("; ");
        println!("{records:6} records, {}: {said}", shape.name);
    }
}

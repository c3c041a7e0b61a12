//! All four readings of the same good files.

use crate::measuring::{
    nanoseconds_a_record, Times, FILES, RECORDS, ROUNDS, SPEED_ROUNDS, WARM_UP,
};
use crate::readers::{Asked, READERS};
use second::generate::good::file_of;
use second::generate::random::Random;
use std::hint::black_box;

/// Half of what was asked for, and far above what is measured today, so that a noisy machine does not fail it.
const MOST: f64 = 1.0;

struct Medians {
    proved: f64,
    tuned: f64,
    swept: f64,
    straightforward: f64,
}

impl Medians {
    fn to_straightforward(&self) -> f64 {
        self.proved / self.straightforward
    }

    fn ratios(&self) -> String {
        format!(
            "proved/straightforward {:.2}, proved/swept {:.2}, proved/tuned {:.2}",
            self.to_straightforward(),
            self.proved / self.swept,
            self.proved / self.tuned
        )
    }
}

pub fn run() {
    println!("buffers are warm: each file is read {WARM_UP} times by all four, then measured, before the next");
    println!("{FILES} files for each size, readings in turn, median of all rounds; each opens a session each time, measured too");
    for (records, rounds) in [(100, 4_000), (1_000, 1_000), (RECORDS, ROUNDS)] {
        show(records, &measure(&good_files(records), rounds));
    }
    show_pass();
}

/// The reading at its largest, alone; whether it is fast enough.
pub fn is_fast() -> bool {
    let medians = measure(&good_files(RECORDS), SPEED_ROUNDS);
    let ratio = medians.to_straightforward();
    println!("speed: {}", medians.ratios());
    if ratio > MOST {
        eprintln!("too slow: proved/straightforward is above {MOST:.1}");
    }
    ratio <= MOST
}

fn good_files(records: usize) -> Vec<Asked> {
    let drafts =
        (0..FILES).map(|number| file_of(&mut Random::new(records as u64, number), records));
    drafts.map(|draft| Asked::good(&draft)).collect()
}

fn measure(files: &[Asked], rounds: usize) -> Medians {
    let mut times = Times::<{ READERS.len() }>::new();
    for asked in files {
        times.in_turn(WARM_UP, rounds, |reader| asked.read_by(reader));
    }
    let [proved, tuned, swept, straightforward] = times.medians();
    Medians {
        proved,
        tuned,
        swept,
        straightforward,
    }
}

fn show(records: usize, medians: &Medians) {
    let said = |name, time| {
        let each = nanoseconds_a_record(time, records);
        format!("{name} {time:9.2} us ({each:.1} ns per record)")
    };
    println!(
        "{records:6} records: {}, {}, {}, {}; {}",
        said("proved", medians.proved),
        said("tuned", medians.tuned),
        said("swept", medians.swept),
        said("straightforward", medians.straightforward),
        medians.ratios()
    );
}

/// For reference: what no reading can go below.
fn show_pass() {
    let mut times = Times::<1>::new();
    for asked in good_files(RECORDS) {
        let sum = sum_of_words(&asked.file);
        let pass = |_| sum_of_words(black_box(&asked.file)) == sum;
        times.in_turn(WARM_UP, ROUNDS, pass);
    }
    let [pass] = times.medians();
    println!(
        "one pass over the {} bytes of such a file, summing words of eight: {pass:.2} us ({:.1} ns per record)",
        94 * RECORDS,
        nanoseconds_a_record(pass, RECORDS)
    );
}

/// Each byte is looked at once, as many at a time as the compiler likes; 940,000 bytes leave no remainder.
fn sum_of_words(bytes: &[u8]) -> u64 {
    let words = bytes.as_chunks().0.iter().copied().map(u64::from_ne_bytes);
    words.fold(0, u64::wrapping_add)
}

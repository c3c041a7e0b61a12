//! Both programs on the same good company files.

use crate::measuring::{nanoseconds_a_record, Times, FILES, ROUNDS, SPEED_ROUNDS, WARM_UP};
use second::generate::company::{good_company, Company};
use second::generate::random::Random;
use second::{company, proved, Currency, Refusal};
use std::hint::black_box;

/// Details of a file, and how many times the rounds of the largest are taken, so that each size takes about as long.
const SIZES: [(usize, usize); 3] = [(10, 100), (100, 20), (9_998, 1)];

/// The proved library takes at most so many times as long, at each size.
const MOST: f64 = 1.0;

/// A file, the currency that it is in, and room for its tray.
struct Asked {
    currency: Currency,
    input: Company,
    length: usize,
}

/// One program, into a buffer.
type Job = fn(&Asked, &mut [u8]) -> Result<usize, Refusal>;

const JOBS: [Job; 2] = [by_proved, by_second];

pub fn run() {
    println!("{FILES} company files for each size, into a warm buffer, in turn; median of all rounds; no session is opened");
    for (details, times) in SIZES {
        measure_and_show(details, ROUNDS * times);
    }
}

/// Whether the proved library is fast enough at each size.
pub fn is_fast() -> bool {
    let ratios = SIZES.map(|(details, times)| {
        let ratio = measure_and_show(details, SPEED_ROUNDS * times);
        if ratio > MOST {
            eprintln!("too slow: proved/second is above {MOST:.1} with {details} details");
        }
        ratio
    });
    ratios.iter().all(|&ratio| ratio <= MOST)
}

fn by_second(asked: &Asked, out: &mut [u8]) -> Result<usize, Refusal> {
    company(asked.currency, &asked.input.lo, &asked.input.file, out)
}

fn by_proved(asked: &Asked, out: &mut [u8]) -> Result<usize, Refusal> {
    proved::company(asked.currency, &asked.input.lo, &asked.input.file, out)
}

fn asked(number: u64, details: usize) -> Asked {
    let mut random = Random::new(details as u64, number);
    let (currency, input) = good_company(&mut random, details);
    Asked {
        currency,
        input,
        length: 96 * (1 + details),
    }
}

/// The ratio of the medians.
fn measure_and_show(details: usize, rounds: usize) -> f64 {
    let mut times = Times::new();
    for number in 0..FILES {
        measure(&asked(number, details), rounds, &mut times);
    }
    let [proved, second] = times.medians();
    let ratio = proved / second;
    let each = |time| nanoseconds_a_record(time, details);
    println!(
        "company files of {details} details: proved {proved:.2} us ({:.1} ns a detail), second {second:.2} us ({:.1} ns a detail), \
         ratio proved/second {ratio:.2}",
        each(proved),
        each(second)
    );
    ratio
}

fn measure(asked: &Asked, rounds: usize, times: &mut Times<2>) {
    let mut trays = JOBS.map(|job| {
        let mut tray = vec![0; asked.length];
        assert_eq!(job(asked, &mut tray), Ok(asked.length));
        tray
    });
    assert!(trays[0] == trays[1], "both write the same");
    let out = &mut trays[0];
    let job = |turn: usize| JOBS[turn](black_box(asked), out).is_ok();
    times.in_turn(WARM_UP, rounds, job);
}

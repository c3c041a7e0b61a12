//! What the parts of the measuring share: jobs in turn, and their medians.

use std::hint::black_box;
use std::time::Instant;

/// Files of one kind, records of each where it is large, and rounds before and while they are measured.
pub const FILES: u64 = 5;
pub const RECORDS: usize = 10_000;
pub const WARM_UP: usize = 20;
pub const ROUNDS: usize = 200;

/// Enough for medians to settle, and few enough for the gate.
pub const SPEED_ROUNDS: usize = 60;

/// Microseconds of each of so many jobs.
pub struct Times<const JOBS: usize>([Vec<f64>; JOBS]);

impl<const JOBS: usize> Times<JOBS> {
    pub fn new() -> Self {
        Times([const { Vec::new() }; JOBS])
    }

    /// Each job once in a round, known by its number; the rounds of the warm-up are not kept.
    pub fn in_turn(&mut self, warm_up: usize, rounds: usize, mut job: impl FnMut(usize) -> bool) {
        for round in 0..warm_up + rounds {
            for step in 0..JOBS {
                let turn = turn(round, step, JOBS);
                let time = timed(|| job(turn));
                if round >= warm_up {
                    self.0[turn].push(time);
                }
            }
        }
    }

    pub fn medians(self) -> [f64; JOBS] {
        self.0.map(median)
    }
}

/// Forth and back, each time from another on: who goes first changes from round to round, and who goes before whom too.
fn turn(round: usize, step: usize, jobs: usize) -> usize {
    let step = match round % 2 {
        0 => step,
        _ => jobs - 1 - step,
    };
    (step + round / 2) % jobs
}

/// Microseconds of work that must be answered as it is meant.
pub fn timed(work: impl FnOnce() -> bool) -> f64 {
    let start = Instant::now();
    let as_meant = black_box(work());
    let elapsed = start.elapsed();
    assert!(as_meant, "bench files are answered as they are meant");
    elapsed.as_secs_f64() * 1e6
}

fn median(mut times: Vec<f64>) -> f64 {
    times.sort_by(f64::total_cmp);
    times[times.len() / 2]
}

pub fn nanoseconds_a_record(microseconds: f64, records: usize) -> f64 {
    microseconds * 1_000.0 / records as f64
}

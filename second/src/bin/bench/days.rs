//! A whole day by either program, and its files one by one.

use second::day::{Day, Outcome};
use second::proved;
use std::hint::black_box;

pub fn by_proved(day: &Day) -> bool {
    all_accepted(&proved::day(black_box(day)))
}

pub fn by_second(day: &Day) -> bool {
    all_accepted(&black_box(day).run())
}

pub fn all_accepted(outcome: &Outcome) -> bool {
    outcome.opening.is_ok() && outcome.answers.iter().all(Result::is_ok)
}

/// Each file read by the proved library alone, in a session opened for it.
pub fn all_read(day: &Day) -> bool {
    let mut files = black_box(day).files();
    files.all(|file| proved::read(&day.opening, file).is_ok())
}

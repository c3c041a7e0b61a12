//! `bench`: the programs on the same files, in turn, buffers warm. `bench speed`: the reading alone, also of counters that
//! fall, and company files, which must be fast enough.

use std::process::ExitCode;

mod addressed;
mod building;
mod company;
mod contents;
mod counters;
mod country;
mod days;
mod extracting;
mod measuring;
mod memory;
mod presenting;
mod queue;
mod readers;
mod reading;
mod receiving;
mod worst;

fn main() -> ExitCode {
    let words: Vec<String> = std::env::args().skip(1).collect();
    let words: Vec<&str> = words.iter().map(String::as_str).collect();
    match words[..] {
        [] => run_all(),
        ["speed"] if reading::is_fast() & counters::is_fast() & company::is_fast() => {}
        ["speed"] => return ExitCode::FAILURE,
        _ => {
            eprintln!("usage: bench [speed]");
            return ExitCode::from(2);
        }
    }
    ExitCode::SUCCESS
}

fn run_all() {
    reading::run();
    presenting::run();
    extracting::run();
    building::run();
    company::run();
    receiving::run();
    worst::run();
    contents::run();
    counters::run();
    queue::run();
    country::run();
}

//! The morning queue: forty members present all they can in one session, in turn.

use crate::days::{all_accepted, all_read, by_proved, by_second};
use crate::measuring::{nanoseconds_a_record, Times};
use crate::memory::{forget_most_held, most_held};
use second::day::{Day, Outcome};
use second::generate::queue::{queue, Group};
use second::generate::random::Random;
use second::{proved, Refusal};

const ROUNDS: usize = 10;

/// Members, and records of each of their files.
const GROUPS: [Group; 4] = [
    group(4, 10_000),
    group(12, 1_000),
    group(12, 100),
    group(12, 10),
];

const fn group(members: usize, records: usize) -> Group {
    // An origin has no more identifiers.
    let files = 36;
    Group {
        members,
        files,
        records,
    }
}

pub fn run() {
    let day = queue(&mut Random::new(40, 0), &GROUPS);
    println!(
        "the morning queue: {} files of {} members, {} records, {} bytes, presented in one session",
        day.ends().len(),
        members(),
        records(&day),
        day.bytes().len()
    );
    // Before anything else is done with the day, so that only this call is seen.
    let outcome = with_memory(&day);
    assert!(all_accepted(&outcome), "bench files are good");
    assert!(outcome == day.run(), "both presentings agree");
    show_shares(&day);
    drop(day);
    show_sizes();
}

fn members() -> usize {
    GROUPS.iter().map(|group| group.members).sum()
}

fn records(day: &Day) -> usize {
    day.bytes().len() / 94
}

fn with_memory(day: &Day) -> Outcome {
    forget_most_held();
    let before = most_held();
    let outcome = proved::day(day);
    let after = most_held();
    println!(
        "memory: at most {:.1} MB held before the day, {:.1} MB after it, the files themselves {:.1} MB; the call added {} bytes",
        before as f64 / 1e6,
        after as f64 / 1e6,
        day.bytes().len() as f64 / 1e6,
        after - before
    );
    outcome
}

fn show_shares(day: &Day) {
    // As many files, of header and control only.
    let empty = queue(&mut Random::new(40, 1), &[group(members(), 2)]);
    let mut times = Times::new();
    times.in_turn(1, ROUNDS, |turn| match turn {
        0 => by_proved(day),
        1 => by_second(day),
        2 => all_read(day),
        3 => all_opened(day),
        _ => by_proved(&empty),
    });
    let [proved, second, with_opening, opening, handing] = times.medians();
    println!(
        "in all: proved {:.3} s, second {:.3} s, ratio proved/second {:.2}",
        proved / 1e6,
        second / 1e6,
        proved / second
    );
    let reading = with_opening - opening;
    let share = |time| format!("{time:.0} us ({:.1} %)", 100.0 * time / proved);
    println!(
        "of {proved:.0} us: reading {}, handing the session on {}, {:.2} us per file, posting and what else is left {}",
        share(reading),
        share(handing),
        handing / empty.ends().len() as f64,
        share(proved - reading - handing)
    );
}

/// As many openings as the day has files: a file of no length is refused behind the opening.
fn all_opened(day: &Day) -> bool {
    let no_length = Err(Refusal::of_no_record(201));
    (0..day.ends().len()).all(|_| proved::read(&day.opening, &[]) == no_length)
}

/// Each size alone, in a day of its own.
fn show_sizes() {
    for group in GROUPS.iter().rev() {
        let day = queue(&mut Random::new(40, group.records as u64), &[*group]);
        let mut times = Times::new();
        times.in_turn(1, ROUNDS, |turn| [by_proved, by_second][turn](&day));
        let [proved, second] = times
            .medians()
            .map(|time| nanoseconds_a_record(time, records(&day)));
        println!(
            "{} files of {:5} records alone: proved {proved:.1} ns per record, second {second:.1} ns per record",
            day.ends().len(),
            group.records
        );
    }
}

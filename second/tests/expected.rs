//! The answers meant by the generator, against the reading.

use second::generate::{generate, Case};
use second::read;

fn check(seed: u64, number: u64, case: &Case) {
    let answer = read(&case.rules, &case.file);
    if let Some(expected) = case.expected {
        assert_eq!(
            answer,
            expected,
            "seed {seed}, file {number}, {}, date {}, {:?}:\n{}",
            case.family,
            case.rules.date,
            case.rules.currency,
            shown(&case.file),
        );
    }
}

fn shown(file: &[u8]) -> String {
    let lines = file.chunks(94).take(60);
    lines
        .map(|line| format!("{}\n", line.escape_ascii()))
        .collect()
}

#[test]
fn purposeful_faults_get_the_answers_meant() {
    for seed in 1..=3 {
        for number in 0..60_000 {
            check(seed, number, &generate(seed, number));
        }
    }
}

#[test]
fn a_file_depends_on_seed_and_number_only() {
    for number in [0, 30, 44, 1_000] {
        assert_eq!(generate(7, number).file, generate(7, number).file);
    }
    assert_ne!(generate(7, 0).file, generate(8, 0).file);
}

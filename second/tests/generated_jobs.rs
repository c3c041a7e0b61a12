//! Generated extractions, buildings, strippings, receivings, reasons and company files: what was meant, and both ways there and back.

use second::generate::built::is_as_built;
use second::generate::company::{generate_company, header_body};
use second::generate::extract::generate_extract;
use second::generate::lending::{Input, Lending};
use second::generate::receive::generate_received;
use second::generate::show::generate_shown;
use second::generate::strip::generate_strip;
use second::generate::tray::generate_tray;
use second::{build, receive, strip, Written};
use std::cell::Cell;

const CASES: u64 = 12_000;

/// The generator's meaning, and its own way of making what is to be written.
fn are_those_meant<I: Input>(
    generate: fn(u64, u64) -> Lending<I>,
    check: impl Fn(&Lending<I>, &Written, &str),
) {
    for seed in 1..=2 {
        for number in 0..CASES {
            let case = generate(seed, number);
            let left = case.run();
            let name = format!("seed {seed}, case {number}, {}", case.family);
            assert_eq!(case.check(&left), Ok(()), "{name}");
            check(&case, &left, &name);
        }
    }
}

#[test]
fn extracts_are_those_meant() {
    are_those_meant(generate_extract, |_, _, _| {});
}

#[test]
fn receivings_are_those_meant() {
    for seed in 1..=2 {
        for number in 0..CASES {
            let case = generate_received(seed, number);
            let name = format!("seed {seed}, case {number}, {}", case.family);
            assert_eq!(case.check(case.run()), Ok(()), "{name}");
        }
    }
}

#[test]
fn reasons_are_those_meant() {
    for seed in 1..=2 {
        for number in 0..CASES {
            let case = generate_shown(seed, number);
            let name = format!("seed {seed}, case {number}, {}", case.family);
            assert_eq!(case.check(&case.run(), &case.run_all()), Ok(()), "{name}");
        }
    }
}

/// "Every extract must read as accepted in the session it was made in."
#[test]
fn every_extract_is_received() {
    for number in 0..CASES {
        let case = generate_extract(4, number);
        let left = case.run();
        let Ok(length) = left.answer else { continue };
        let extract = &left.buffer[..length];
        let answer = receive(&case.rules, case.input.entity, extract);
        assert_eq!(answer, Ok(length / 94), "extract {number}");
    }
}

#[test]
fn strippings_are_those_meant() {
    are_those_meant(generate_strip, |_, _, _| {});
}

#[test]
fn buildings_are_those_meant() {
    are_those_meant(generate_tray, |case, left, name| {
        assert_eq!(case.meant, Some(left.answer), "{name}");
        let early = |number| matches!(number, 201 | 206 | 207);
        if !left.answer.is_err_and(|refusal| early(refusal.number)) {
            let reading = left.answer.map(|length| length / 94);
            assert_eq!(reading, case.input.reading.unwrap_or(reading), "{name}");
        }
    });
}

#[test]
fn what_was_built_strips_to_its_tray() {
    for number in 0..CASES {
        let case = generate_tray(3, number);
        let left = case.run();
        let Ok(length) = left.answer else { continue };
        let mut tray = vec![b'#'; case.input.tray.len()];
        let file = &left.buffer[..length];
        let answer = strip(&case.rules, file, &mut tray);
        assert_eq!(answer, Ok(tray.len()), "tray {number}");
        assert!(tray == case.input.tray, "tray {number}");
        assert!(is_as_built(file), "tray {number}");
    }
}

#[test]
fn trays_of_companies_are_those_meant() {
    let unknown = Cell::new(0);
    are_those_meant(generate_company, |case, _, _| {
        unknown.set(unknown.get() + u64::from(case.meant.is_none()));
    });
    // One family in twenty-six.
    assert!(unknown.get() < CASES / 10);
}

/// An LO body that reads makes a tray that builds, up to 10,000 records, and comes back.
#[test]
fn trays_of_companies_build() {
    let mut built = 0;
    for number in 0..CASES {
        let case = generate_company(3, number);
        let left = case.run();
        let Ok(length) = left.answer else { continue };
        let tray = &left.buffer[..length];
        let mut file = vec![b'#'; length + 3 * 94];
        let answer = build(&case.rules, &header_body(&case.rules), tray, &mut file);
        let orders = length / 96 - 1;
        if case.input.lo_reads && (1..=9_996).contains(&orders) {
            assert_eq!(answer, Ok(94 * (orders + 4)), "company {number}");
        }
        let Ok(length) = answer else { continue };
        let mut back = vec![b'#'; tray.len()];
        assert_eq!(
            strip(&case.rules, &file[..length], &mut back),
            Ok(tray.len())
        );
        assert!(back == tray, "company {number}");
        built += 1;
    }
    assert!(built > 1_000, "{built}");
}

/// The file comes back exactly when it is numbered so and blank in its free control positions.
#[test]
fn what_was_stripped_builds_a_file_again() {
    let (mut same, mut other) = (0, 0);
    for number in 0..CASES {
        let case = generate_strip(3, number);
        let left = case.run();
        let Ok(length) = left.answer else { continue };
        let old = &case.input.file;
        let mut file = vec![b'#'; old.len()];
        let tray = &left.buffer[..length];
        let answer = build(&case.rules, &old[..94], tray, &mut file);
        assert_eq!(answer, Ok(file.len()), "strip {number}");
        assert_eq!(file == *old, is_as_built(old), "strip {number}");
        *if file == *old { &mut same } else { &mut other } += 1;
    }
    assert!(same > 500 && other > 500, "{same} {other}");
}

#[test]
fn a_case_depends_on_seed_and_number_only() {
    for number in [40, 1_000] {
        let [one, other] = [7, 7].map(|seed| generate_extract(seed, number));
        assert!(one.input.file == other.input.file && one.buffer == other.buffer);
        assert_eq!(one.input.entity, other.input.entity);
        let [one, other] = [7, 7].map(|seed| generate_tray(seed, number));
        assert!(one.input.tray == other.input.tray && one.buffer == other.buffer);
        let [one, other] = [7, 7].map(|seed| generate_strip(seed, number));
        assert!(one.input.file == other.input.file && one.buffer == other.buffer);
        let [one, other] = [7, 7].map(|seed| generate_company(seed, number));
        assert!(one.input.file == other.input.file && one.input.lo == other.input.lo);
        assert!(one.buffer == other.buffer && one.meant == other.meant);
        let [one, other] = [7, 7].map(|seed| generate_received(seed, number));
        assert!(one.file == other.file && one.entity == other.entity);
        let [one, other] = [7, 7].map(|seed| generate_shown(seed, number));
        assert!(one.file == other.file && one.motives == other.motives);
        assert!(one.entity == other.entity && one.record == other.record);
    }
}

//! The tuned reading answers what the straightforward one answers, on every input.

mod common;

use common::*;
use second::generate::counters::{put_counter_fault, scatter_and_repeat};
use second::generate::good::{any_file, file_of, file_with_batches, smallest_batches};
use second::generate::numbering::renumber;
use second::generate::random::Random;
use second::generate::{generate, Draft};
use second::{read, tuned, Currency, Rules};

/// Bytes at the edges of what may stand somewhere, and far from them.
const BYTES: [u8; 24] = [
    0, 31, 32, 34, 35, 38, 39, 47, 48, 49, 53, 57, 58, 65, 82, 90, 91, 94, 95, 96, 127, 128, 176,
    255,
];

fn agree(rules: &Rules, file: &[u8], name: &str) {
    assert_eq!(tuned::read(rules, file), read(rules, file), "{name}");
}

/// Files written by hand, one of each kind of record at least.
fn by_hand() -> [(Rules, Vec<u8>); 4] {
    let in_pesos = Single {
        origin: "04010001",
        sender: "04990001",
        code: "31",
        destination: "00010001",
        amount: 1,
        ..IN_DOLLARS
    };
    [
        (rules(Currency::Pesos), empty_file("04010001")),
        (rules(Currency::Pesos), listing().concat()),
        (rules(Currency::Pesos), in_pesos.file()),
        (rules(Currency::Dollars), IN_DOLLARS.file()),
    ]
}

#[test]
fn files_by_hand() {
    for (rules, file) in by_hand() {
        assert_eq!(tuned::read(&rules, &file), Ok(file.len() / 94));
        agree(&rules, &file, "by hand");
    }
}

#[test]
fn any_byte_at_any_position() {
    for (rules, mut file) in by_hand() {
        for at in 0..file.len() {
            let good = file[at];
            for byte in 0..=255 {
                file[at] = byte;
                agree(&rules, &file, &format!("{byte} at {at}"));
            }
            file[at] = good;
        }
    }
}

#[test]
fn two_bytes_at_any_two_positions_of_a_record() {
    for (rules, mut file) in by_hand() {
        for record in 0..file.len() / 94 {
            for (one, other) in (0..94 * 94).map(|pair| (pair / 94, pair % 94)) {
                let places = [record * 94 + one, record * 94 + other];
                let good = places.map(|at| file[at]);
                for bytes in [*b" A", *b"A ", *b"19", *b"0*", [b'0', 255], [34, b'8']] {
                    file[places[0]] = bytes[0];
                    file[places[1]] = bytes[1];
                    agree(&rules, &file, &format!("{bytes:?} at {places:?}"));
                }
                file[places[1]] = good[1];
                file[places[0]] = good[0];
            }
        }
    }
}

#[test]
fn some_bytes_in_generated_files() {
    for number in 0..12 {
        let draft = file_with_batches(&mut Random::new(11, number));
        let mut file = draft.bytes();
        for at in 0..file.len() {
            let good = file[at];
            for byte in BYTES {
                file[at] = byte;
                agree(&draft.rules, &file, &format!("{number}: {byte} at {at}"));
            }
            file[at] = good;
        }
    }
}

/// Each record in each place: order, additionals, missing ends.
#[test]
fn records_out_of_place() {
    for (rules, file) in by_hand() {
        let records: Vec<&[u8]> = file.chunks_exact(94).collect();
        for at in 0..records.len() {
            let mut without = records.clone();
            without.remove(at);
            agree(&rules, &without.concat(), &format!("without {at}"));
            agree(&rules, &records[..at].concat(), &format!("up to {at}"));
            for other in 0..records.len() {
                let mut with = records.clone();
                with[at] = records[other];
                agree(&rules, &with.concat(), &format!("{other} in place of {at}"));
                with[at] = records[at];
                with.insert(at, records[other]);
                agree(&rules, &with.concat(), &format!("{other} before {at}"));
                with.swap_remove(other);
                agree(&rules, &with.concat(), &format!("{other} off, {at} twice"));
            }
        }
    }
}

/// Entity fields, sequences and amounts at the edges of their ranges, on rosters that lack somebody.
#[test]
fn entities_and_rosters() {
    let fields = [(0, 15), (1, 80), (2, 4), (6, 4), (2, 80), (7, 84)];
    for currency in [Currency::Pesos, Currency::Dollars] {
        for absent in [0, 1, 401, 402, 403, 499] {
            let mut rules = rules(currency);
            rules.roster[absent] = false;
            for value in 0..1_100 {
                for (place, from) in fields {
                    let file = changed(place, from, &format!("{value:04}")).concat();
                    agree(&rules, &file, &format!("{value} at {place}, {from}"));
                }
            }
        }
    }
}

#[test]
fn dates_and_times() {
    let rules = rules(Currency::Pesos);
    for date in (0..1_000_000).step_by(7).chain(0..1_400) {
        let text = format!("{date:06}");
        let rules = Rules {
            date,
            ..rules.clone()
        };
        agree(&rules, &changed(0, 24, &text).concat(), &text);
        agree(&rules, &changed(1, 70, &text).concat(), &text);
    }
    for time in 0..10_000 {
        let text = format!("{time:04}");
        agree(&rules, &changed(0, 30, &text).concat(), &text);
    }
}

#[test]
fn lengths() {
    let rules = rules(Currency::Pesos);
    let draft = file_of(&mut Random::new(1, 1), 10_000);
    let long = [draft.bytes(), vec![b' '; 188]].concat();
    let blanks = vec![b' '; 940_188];
    for length in (0..2_000).chain([939_906, 939_999, 940_000, 940_001, 940_094, 940_188]) {
        agree(&rules, &blanks[..length], "blanks");
        agree(&draft.rules, &long[..length], "a long file");
    }
    assert_eq!(tuned::read(&draft.rules, &long[..940_000]), Ok(10_000));
    let refusal = refused(201, 0);
    for length in [0, 93, 94, 187, 940_094] {
        assert_eq!(tuned::read(&draft.rules, &long[..length]), refusal);
    }
}

/// A record that is no file's, behind all kinds of files and far into long ones.
#[test]
fn bad_bytes_far_in() {
    let mut random = Random::new(2, 2);
    let draft = file_of(&mut random, 10_000);
    let mut file = draft.bytes();
    for number in 0..300 {
        let at = random.below(file.len());
        let other = random.below(file.len());
        let good = (file[at], file[other]);
        file[at] = random.byte();
        file[other] = random.byte();
        agree(&draft.rules, &file, &format!("{number}: {at}, {other}"));
        file[other] = good.1;
        file[at] = good.0;
    }
    for number in 0..2_000 {
        let draft = any_file(&mut random);
        let file = [draft.bytes(), vec![random.byte(); 94]].concat();
        agree(&draft.rules, &file, &format!("{number}: one more"));
    }
}

/// So many files of each size.
const FALLING: [(usize, u64); 4] = [(12, 4_000), (100, 800), (1_000, 150), (10_000, 16)];

/// Counters that fall, good and broken, in batches of some twenty records and of one.
#[test]
fn falling_counters() {
    for (records, files) in FALLING {
        for number in 0..files {
            let mut random = Random::new(records as u64, number);
            let mut draft = match number % 3 {
                0 => smallest_batches(&mut random, (records - 2) / 3),
                _ => file_of(&mut random, records),
            };
            renumber(&mut random, &mut draft);
            let good = draft.records.len();
            assert_eq!(tuned::read(&draft.rules, &draft.bytes()), Ok(good));
            let name = format!("{records} records, {number}");
            one_counter_changed(&mut random, &draft, &name);
            let expected = put_counter_fault(&mut random, &mut draft);
            assert_eq!(
                Some(tuned::read(&draft.rules, &draft.bytes())),
                expected,
                "{name}"
            );
            agree(&draft.rules, &draft.bytes(), &name);
            put_counter_fault(&mut random, &mut draft);
            agree(&draft.rules, &draft.bytes(), &format!("{name}: twice"));
            let expected = scatter_and_repeat(&mut random, &mut draft, 3);
            agree(
                &draft.rules,
                &draft.bytes(),
                &format!("{name}: {expected:?}"),
            );
        }
    }
}

/// Any digit of a counter, alone and with the file cut off behind it.
fn one_counter_changed(random: &mut Random, draft: &Draft, name: &str) {
    let individuals = draft.places(|record| record[0] == b'6');
    for _ in 0..4 {
        let mut file = draft.bytes();
        let place = *random.pick(&individuals);
        file[place * 94 + random.between(87, 93)] = random.digit();
        agree(&draft.rules, &file, &format!("{name}: changed at {place}"));
        let end = random.between(place + 1, draft.records.len());
        agree(
            &draft.rules,
            &file[..end * 94],
            &format!("{name}: up to {end}"),
        );
    }
}

#[test]
fn generated_files() {
    let mut refused = 0;
    for seed in [1, 20_241] {
        for number in 0..60_000 {
            let case = generate(seed, number);
            let name = format!("seed {seed}, file {number}, {}", case.family);
            agree(&case.rules, &case.file, &name);
            refused += u32::from(tuned::read(&case.rules, &case.file).is_err());
        }
    }
    assert!(refused > 50_000, "{refused}");
}

#[test]
fn control_total_keeps_its_last_ten_digits() {
    let rules = rules(Currency::Dollars);
    let mut records = destinations_over_ten_digits();
    assert_eq!(tuned::read(&rules, &records.concat()), Ok(1_005));
    put(&mut records[1_003], 11, "1009998999");
    agree(&rules, &records.concat(), "eleven digits");
}

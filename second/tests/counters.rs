//! Positions 88-94 of individual records (02, ticket 3): ascending in a batch, none twice in the file. Files written by hand.

mod common;

use common::*;
use second::{build, listing, read, read_swept, receive, strip, tuned, Currency, Refusal, Session};

const ONE: &str = "04010001";
const OTHER: &str = "04030002";

/// To whom all orders go.
const DESTINATION: &str = "04020001";

/// A batch of orders of one cent: its sender, and their counters.
type Batch<'a> = (&'a str, &'a [u64]);

/// The fields of both controls from the number of entries on.
fn sums(orders: usize) -> String {
    format!("{:010}{orders:012}{:012}", orders * 4_020_001, 0)
}

fn file(batches: &[Batch]) -> Vec<Record> {
    let mut records = vec![header(ONE)];
    for ((sender, counters), number) in batches.iter().zip(1..) {
        let number = format!("{number:07}");
        records.push(batch_header(sender, &number));
        for counter in *counters {
            let counter = format!("{sender}{counter:07}");
            records.push(individual("37", DESTINATION, "0000000001", "000", &counter));
        }
        let sums = format!("{:06}{}", counters.len(), sums(counters.len()));
        records.push(batch_control(&sums, sender, &number));
    }
    let orders = batches.iter().map(|(_, counters)| counters.len()).sum();
    let blocks = (records.len() + 1).div_ceil(10);
    let counts = format!("{:06}{blocks:06}{orders:08}", batches.len());
    records.push(file_control(&(counts + &sums(orders))));
    records
}

/// What all three readings say.
fn says_of(records: &[Record]) -> Result<usize, Refusal> {
    let (rules, file) = (rules(Currency::Pesos), records.concat());
    let answer = read(&rules, &file);
    assert_eq!(tuned::read(&rules, &file), answer, "tuned");
    assert_eq!(read_swept(&rules, &file), answer, "swept");
    answer
}

fn is_good(batches: &[Batch]) {
    let records = file(batches);
    assert_eq!(says_of(&records), Ok(records.len()), "{batches:?}");
}

fn is_27(batches: &[Batch], place: usize) {
    assert_eq!(says_of(&file(batches)), refused(27, place), "{batches:?}");
}

#[test]
fn case_l_stands() {
    assert_eq!(says_of(&common::listing()), Ok(10));
}

#[test]
fn two_machines() {
    is_good(&[
        (ONE, &[1, 2]),
        (ONE, &[5_000_001, 5_000_002]),
        (ONE, &[3, 4]),
    ]);
    is_good(&[
        (ONE, &[5_000_001]),
        (OTHER, &[1]),
        (ONE, &[5_000_002]),
        (OTHER, &[2]),
    ]);
    is_good(&[
        (ONE, &[2, 4, 6]),
        (OTHER, &[1, 3, 5]),
        (ONE, &[8]),
        (OTHER, &[7]),
    ]);
    is_good(&[(ONE, &[7]), (ONE, &[5]), (ONE, &[3]), (ONE, &[1])]);
}

#[test]
fn a_restart_at_one_in_a_second_batch() {
    is_27(&[(ONE, &[1, 2]), (ONE, &[1, 2])], 6);
    is_27(&[(ONE, &[1]), (ONE, &[1])], 5);
}

#[test]
fn a_restart_at_a_number_not_used() {
    is_good(&[(ONE, &[3, 4]), (ONE, &[1, 2])]);
    is_good(&[(ONE, &[1, 3]), (ONE, &[2, 4])]);
    // It runs into one that is used.
    is_27(&[(ONE, &[3, 4]), (ONE, &[2, 3])], 7);
    is_27(&[(ONE, &[3, 4]), (ONE, &[1, 2, 4])], 8);
}

#[test]
fn repeated_within_a_batch() {
    is_27(&[(ONE, &[1, 1])], 3);
    is_27(&[(ONE, &[1, 2, 1])], 4);
    is_27(&[(ONE, &[9]), (ONE, &[1, 2, 2])], 7);
}

#[test]
fn repeated_at_another_sender() {
    is_27(&[(ONE, &[1]), (OTHER, &[1])], 5);
    is_27(&[(ONE, &[5, 6]), (OTHER, &[4, 6])], 7);
    is_27(
        &[(ONE, &[1]), (OTHER, &[2]), (ONE, &[3]), (OTHER, &[1])],
        11,
    );
}

#[test]
fn the_first_of_each_batch_exceeds_zero() {
    is_27(&[(ONE, &[0])], 2);
    is_27(&[(ONE, &[1]), (ONE, &[0])], 5);
    is_27(&[(ONE, &[1]), (OTHER, &[0, 2])], 5);
    is_good(&[(ONE, &[2]), (ONE, &[1])]);
}

#[test]
fn one_behind_the_highest() {
    is_good(&[(ONE, &[9_999_999]), (ONE, &[1])]);
    is_27(&[(ONE, &[9_999_999, 1])], 3);
    is_27(&[(ONE, &[9_999_999]), (ONE, &[9_999_999])], 5);
}

#[test]
fn falling_within_a_batch() {
    is_27(&[(ONE, &[2, 1])], 3);
    is_27(&[(ONE, &[9]), (ONE, &[3, 4, 2])], 7);
}

/// The earlier of two is never named, however far it lies.
#[test]
fn the_later_record_is_named() {
    is_27(&[(ONE, &[7]), (OTHER, &[8]), (ONE, &[6, 7])], 9);
    // The first of several that repeat, not the one whose counter came first.
    is_27(&[(ONE, &[7]), (ONE, &[8]), (ONE, &[8]), (ONE, &[7])], 8);
    is_27(&[(ONE, &[7]), (ONE, &[7]), (ONE, &[7])], 5);
}

#[test]
fn numbers_that_look_alike() {
    for step in [
        8,
        64,
        100,
        1_000,
        4_096,
        65_536,
        131_072,
        1_000_000,
        1 << 20,
    ] {
        is_good(&[(ONE, &[5, 5 + 2 * step]), (ONE, &[5 + step])]);
        is_27(
            &[(ONE, &[5, 5 + 2 * step]), (ONE, &[5 + step, 5 + 2 * step])],
            7,
        );
    }
}

/// Every pair of records of a file with many of them.
#[test]
fn repeated_anywhere() {
    let counters: Vec<u64> = (1..=24).map(|number| number * 400_000).collect();
    let batches: Vec<Batch> = counters.rchunks(2).map(|part| (ONE, part)).collect();
    let good = file(&batches);
    assert_eq!(says_of(&good), Ok(good.len()));
    let individuals: Vec<usize> = (0..good.len()).filter(|&at| good[at][0] == b'6').collect();
    for (index, &later) in individuals.iter().enumerate() {
        for &earlier in &individuals[..index] {
            let mut records = good.clone();
            records[later][87..94].copy_from_slice(&good[earlier][87..94]);
            assert_eq!(says_of(&records), refused(27, later));
        }
    }
}

/// A file whose record 6 repeats the counter of record 2, with another text from this position of a record on.
fn repeated_and(place: usize, from: usize, text: &str) -> Result<usize, Refusal> {
    let mut records = file(&[(ONE, &[1, 2]), (OTHER, &[1, 3])]);
    put(&mut records[place], from, text);
    says_of(&records)
}

#[test]
fn its_place_in_the_order_of_the_checks() {
    assert_eq!(repeated_and(6, 30, "0000000000"), refused(19, 6));
    assert_eq!(repeated_and(6, 79, "2"), refused(17, 6));
    assert_eq!(repeated_and(6, 80, " "), refused(17, 6));
    assert_eq!(repeated_and(6, 94, "A"), refused(17, 6));
    assert_eq!(repeated_and(6, 80, ONE), refused(27, 6));
    assert_eq!(repeated_and(3, 12, "1"), refused(77, 3));
    assert_eq!(repeated_and(5, 80, "0901"), refused(203, 5));
    // Behind it.
    assert_eq!(repeated_and(7, 12, "1"), refused(27, 6));
    assert_eq!(repeated_and(8, 5, "000009"), refused(27, 6));
    assert_eq!(repeated_and(9, 2, "000009"), refused(27, 6));
    assert_eq!(repeated_and(9, 94, "^"), refused(27, 6));
}

/// The number of an additional, and that of a batch, are no counters of individual records.
#[test]
fn additionals_and_batches_repeat_numbers() {
    let mut records = common::listing();
    put(&mut records[2], 88, "0000003");
    put(&mut records[3], 88, "0000004");
    for place in [6, 7] {
        put(&mut records[place], 88, "0000002");
    }
    assert_eq!(says_of(&records), Ok(10));
    for place in [6, 7] {
        put(&mut records[place], 88, "0000004");
    }
    assert_eq!(says_of(&records), refused(27, 6));
}

/// Good to every job.
fn falling() -> Vec<u8> {
    file(&[
        (ONE, &[5_000_001, 5_000_002]),
        (OTHER, &[1, 2]),
        (ONE, &[5_000_003]),
    ])
    .concat()
}

fn repeating() -> Vec<u8> {
    file(&[(ONE, &[5, 6]), (OTHER, &[1, 2]), (ONE, &[2, 7])]).concat()
}

/// Where `repeating` is refused.
const REPEATED: usize = 10;

fn session() -> Session {
    let everybody: Vec<u64> = (1..=499).collect();
    Session::open(240_229, Currency::Pesos, &everybody).1
}

#[test]
fn presenting_and_listing() {
    let mut session = session();
    assert_eq!(
        session.present(&repeating()),
        refused(27, REPEATED).map(|_| ())
    );
    assert_eq!(session.present(&falling()), Ok(()));
    let text = "ENTITY SENT RECEIVED NET\n401 3 0 3\n402 0 5 -5\n403 2 0 2\nSUM 5 5 0\n";
    assert_eq!(listing(&falling()), text.as_bytes());
    assert_eq!(listing(&repeating()), b"REFUSED 27 AT 10\n");
}

/// Extracts keep the counters, and are received by the same rule.
#[test]
fn extracting_and_receiving() {
    let (session, file) = (session(), falling());
    let mut extract = file.clone();
    assert_eq!(session.extract(402, &file, &mut extract), Ok(file.len()));
    assert_eq!(receive(session.rules(), 402, &extract), Ok(file.len() / 94));
    let individual = |place: usize| place * 94 + 87..place * 94 + 94;
    assert_eq!(&extract[individual(6)], b"0000001");
    let repeated = extract[individual(2)].to_vec();
    extract[individual(7)].copy_from_slice(&repeated);
    assert_eq!(receive(session.rules(), 402, &extract), refused(27, 7));
    let mut out = vec![b'#'; file.len()];
    let answer = session.extract(402, &repeating(), &mut out);
    assert_eq!(answer, refused(27, REPEATED));
}

/// Building still numbers 1, 2, .. through the file.
#[test]
fn stripping_and_building() {
    let (rules, old) = (rules(Currency::Pesos), falling());
    let mut tray = vec![0; 8 * 96];
    assert_eq!(strip(&rules, &old, &mut tray), Ok(8 * 96));
    let mut built = vec![0; old.len()];
    assert_eq!(build(&rules, &old[..94], &tray, &mut built), Ok(old.len()));
    let ascending = file(&[(ONE, &[1, 2]), (OTHER, &[3, 4]), (ONE, &[5])]);
    assert!(built == ascending.concat());
    let answer = strip(&rules, &repeating(), &mut tray);
    assert_eq!(answer, refused(27, REPEATED));
}

//! Both extractings from the same files.

use crate::addressed::Asked;
use crate::measuring::{Times, FILES, RECORDS, ROUNDS, WARM_UP};
use second::day::Opening;
use second::generate::addressed::{shared_file, Addressed, Share, SEVERAL};
use second::generate::random::Random;
use second::proved;
use std::hint::black_box;

pub fn run() {
    println!("extracting from {FILES} files of {RECORDS} records, into a warm buffer; both open a session each time, measured too");
    let shares = [
        ("half of the records", Share::Half),
        ("one record in 1000", Share::OneIn(1_000)),
        ("all records", Share::All),
    ];
    for (name, share) in shares {
        let mut times = Times::new();
        let mut bytes = 0;
        for number in 0..FILES {
            let asked = asked(number, share);
            bytes += length(&asked);
            measure(&asked, &mut times);
        }
        show(name, bytes / FILES as usize, times);
    }
}

fn asked(number: u64, share: Share) -> Asked {
    let mut random = Random::new(RECORDS as u64, number);
    let Addressed { draft, entity } = shared_file(&mut random, RECORDS, SEVERAL, share);
    Asked {
        opening: Opening::of(&draft.rules),
        entity: entity as u64,
        file: draft.bytes(),
    }
}

fn by_second(asked: &Asked, out: &mut [u8]) -> Option<usize> {
    let (_, session) = asked.opening.open();
    session.extract(asked.entity, &asked.file, out).ok()
}

fn by_proved(asked: &Asked, out: &mut [u8]) -> Option<usize> {
    proved::extract(&asked.opening, asked.entity, &asked.file, out).ok()
}

/// The extract's length, once both have made the same.
fn length(asked: &Asked) -> usize {
    let mut ours = vec![0; asked.file.len()];
    let mut theirs = ours.clone();
    let length = by_second(asked, &mut ours).expect("bench files are good");
    assert_eq!(by_proved(asked, &mut theirs), Some(length));
    assert!(ours == theirs, "both extracts agree");
    length
}

fn by_reading(asked: &Asked, _: &mut [u8]) -> Option<usize> {
    proved::read(&asked.opening, &asked.file).ok()
}

fn measure(asked: &Asked, times: &mut Times<3>) {
    let mut out = vec![0; asked.file.len()];
    let jobs = [by_proved, by_reading, by_second];
    let job = |turn: usize| jobs[turn](black_box(asked), &mut out).is_some();
    times.in_turn(WARM_UP, ROUNDS, job);
}

fn show(name: &str, bytes: usize, times: Times<3>) {
    let [extracting, reading, second] = times.medians();
    println!(
        "{name} ({bytes} bytes): proved {extracting:.2} us, second {second:.2} us, ratio proved/second {:.2}; \
         proved reading alone {reading:.2} us, ratio extracting/reading {:.2}",
        extracting / second,
        extracting / reading
    );
}

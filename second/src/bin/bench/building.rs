//! Both buildings from the same trays, and both strippings of the files they give.

use crate::measuring::{Times, FILES, RECORDS, ROUNDS, WARM_UP};
use second::day::Opening;
use second::generate::good::file_of;
use second::generate::random::Random;
use second::{build, proved, strip, Refusal};
use std::hint::black_box;

/// A header body and a tray, the file that they give, and a session that takes it.
struct Asked {
    opening: Opening,
    header: Vec<u8>,
    tray: Vec<u8>,
    file: Vec<u8>,
}

/// One job of one program, into a buffer.
type Job = fn(&Asked, &mut [u8]) -> Result<usize, Refusal>;

pub fn run() {
    println!("building and stripping {FILES} files of {RECORDS} records, into a warm buffer; both open a session each time, measured too");
    let (mut building, mut stripping) = (Times::new(), Times::new());
    for number in 0..FILES {
        let asked = asked(number);
        let by_both = [proved_build, second_build];
        measure(&asked, &asked.file, by_both, &mut building);
        let by_both = [proved_strip, second_strip];
        measure(&asked, &asked.tray, by_both, &mut stripping);
    }
    show("building", building);
    show("stripping", stripping);
}

fn second_build(asked: &Asked, out: &mut [u8]) -> Result<usize, Refusal> {
    let (_, session) = asked.opening.open();
    build(session.rules(), &asked.header, &asked.tray, out)
}

fn proved_build(asked: &Asked, out: &mut [u8]) -> Result<usize, Refusal> {
    proved::build(&asked.opening, &asked.header, &asked.tray, out)
}

fn second_strip(asked: &Asked, out: &mut [u8]) -> Result<usize, Refusal> {
    let (_, session) = asked.opening.open();
    strip(session.rules(), &asked.file, out)
}

fn proved_strip(asked: &Asked, out: &mut [u8]) -> Result<usize, Refusal> {
    proved::strip(&asked.opening, &asked.file, out)
}

/// The file is numbered as it is built, whatever its draft held.
fn asked(number: u64) -> Asked {
    let draft = file_of(&mut Random::new(RECORDS as u64, number), RECORDS);
    let (rules, header) = (&draft.rules, draft.records[0].to_vec());
    let mut tray = vec![0; 96 * RECORDS];
    let length = strip(rules, &draft.bytes(), &mut tray).expect("bench files are good");
    tray.truncate(length);
    let mut file = vec![0; 94 * RECORDS];
    assert_eq!(build(rules, &header, &tray, &mut file), Ok(file.len()));
    Asked {
        opening: Opening::of(rules),
        header,
        tray,
        file,
    }
}

fn measure(asked: &Asked, expected: &[u8], jobs: [Job; 2], times: &mut Times<2>) {
    let mut out = vec![0; expected.len()];
    for job in jobs {
        out.fill(0);
        assert_eq!(job(asked, &mut out), Ok(expected.len()));
        assert!(out == expected, "both write the same");
    }
    let job = |turn: usize| jobs[turn](black_box(asked), &mut out).is_ok();
    times.in_turn(WARM_UP, ROUNDS, job);
}

fn show(name: &str, times: Times<2>) {
    let [proved, second] = times.medians();
    println!(
        "{name}: proved {proved:.2} us, second {second:.2} us, ratio proved/second {:.2}",
        proved / second
    );
}

//! Receiving against reading, of files that both the house and a desk accept.

use crate::addressed::Asked;
use crate::measuring::{Times, FILES, RECORDS, ROUNDS, WARM_UP};
use second::day::Opening;
use second::generate::good::file_of;
use second::generate::handed::readdress;
use second::generate::random::Random;
use second::{proved, receive, Refusal};
use std::hint::black_box;

pub fn run() {
    println!(
        "receiving {FILES} files of {RECORDS} records, all to one entity, which the house reads too; \
         each job opens a session each time, measured too"
    );
    let mut times = Times::new();
    for number in 0..FILES {
        measure(&asked(number), &mut times);
    }
    let [receiving, reading, second] = times.medians();
    println!(
        "receiving: proved {receiving:.2} us, proved reading of the same bytes {reading:.2} us, ratio receiving/reading {:.2}; \
         second {second:.2} us, ratio proved/second {:.2}",
        receiving / reading,
        receiving / second
    );
}

/// A file that is all to one entity, with an origin on the roster.
fn asked(number: u64) -> Asked {
    let mut random = Random::new(RECORDS as u64, number);
    let mut draft = file_of(&mut random, RECORDS);
    let entity = random.between(1, 499);
    readdress(&mut draft, entity);
    Asked {
        opening: Opening::of(&draft.rules),
        entity: entity as u64,
        file: draft.bytes(),
    }
}

fn proved_receive(asked: &Asked) -> Result<usize, Refusal> {
    proved::receive(&asked.opening, asked.entity, &asked.file)
}

fn proved_read(asked: &Asked) -> Result<usize, Refusal> {
    proved::read(&asked.opening, &asked.file)
}

fn second_receive(asked: &Asked) -> Result<usize, Refusal> {
    let (_, session) = asked.opening.open();
    receive(session.rules(), asked.entity, &asked.file)
}

fn measure(asked: &Asked, times: &mut Times<3>) {
    let jobs = [proved_receive, proved_read, second_receive];
    for job in jobs {
        assert_eq!(job(asked), Ok(RECORDS), "bench files are good to both");
    }
    times.in_turn(WARM_UP, ROUNDS, |turn| jobs[turn](black_box(asked)).is_ok());
}

//! Both presentings of a full day.

use crate::days::{all_read, by_proved, by_second};
use crate::measuring::Times;
use second::generate::day::full_day;
use second::generate::random::Random;
use second::proved;

const ROUNDS: usize = 20;

pub fn run() {
    let day = full_day(&mut Random::new(36, 0));
    assert_eq!(proved::day(&day), day.run(), "both presentings agree");
    let mut times = Times::new();
    let jobs = [by_proved, all_read, by_second];
    times.in_turn(0, ROUNDS, |turn| jobs[turn](&day));
    let [presenting, reading, second] = times.medians();
    println!(
        "presenting 36 files of 10000 records: {presenting:.0} us, reading them: {reading:.0} us, ratio {:.2}",
        presenting / reading
    );
    println!(
        "second program presenting them: {second:.0} us, ratio proved/second {:.2}",
        presenting / second
    );
}

//! One job, done by both programs on generated cases until they differ.

use super::counting::{Rows, Tally};
use super::job::{Job, Seen};
use std::time::{Duration, Instant};

pub fn run<J: Job>(seed: u64, cases: u64, table: &[Rows<J>]) -> bool {
    let (mut tally, mut times) = (Tally::new(table, cases), Times::default());
    for number in 0..cases {
        let case = timed(&mut times.generating, || J::GENERATE(seed, number));
        let ours = timed(&mut times.second, || case.by_second());
        let theirs = timed(&mut times.proved, || case.by_proved());
        let agreed = match &theirs {
            Ok(theirs) if *theirs == ours => case.check(number, &ours),
            _ => Err("the two differ".into()),
        };
        if let Err(fault) = agreed {
            let case_name = J::CASE;
            println!("DIFFERENCE: seed {seed}, {case_name} {number}: {fault}");
            let files = format!("difference-{seed}-{case_name}-{number}");
            case.show(&ours, &theirs, &files);
            return false;
        }
        let answer = ours;
        tally.add(&Seen {
            number,
            case,
            answer,
        });
    }
    println!("{}: no difference", J::JOB);
    let good = tally.enough();
    times.show();
    good
}

#[derive(Default)]
struct Times {
    generating: Duration,
    second: Duration,
    proved: Duration,
}

impl Times {
    fn show(&self) {
        println!(
            "seconds: generating {:.2}, second {:.2}, proved {:.2}",
            self.generating.as_secs_f64(),
            self.second.as_secs_f64(),
            self.proved.as_secs_f64()
        );
    }
}

fn timed<T>(total: &mut Duration, work: impl FnOnce() -> T) -> T {
    let start = Instant::now();
    let done = work();
    *total += start.elapsed();
    done
}

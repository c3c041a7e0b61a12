//! Days: an opening, and the files that are presented after it.

pub use super::desk::{DayCase, Presented};
use super::desk::{Desk, IDENTIFIERS};
use super::entities::{any_currency, put_origin, relation};
use super::good::{any_date, long_file};
use super::opening::{accepted, any_opening, everybody, shuffle};
use super::random::{Random, DAYS};
use crate::day::{Day, Opening};

pub fn generate_day(seed: u64, number: u64) -> DayCase {
    let mut random = Random::new(seed, DAYS + number);
    if number % 50 == 7 {
        return all_identifiers(&mut random);
    }
    let opened = any_opening(&mut random);
    let files = random.between(0, 12);
    let mut desk = Desk::new(&mut random, opened);
    for _ in 0..files {
        desk.next_file();
    }
    desk.close()
}

fn open_to_everybody(random: &mut Random) -> Opening {
    Opening {
        date: any_date(random),
        currency: any_currency(random),
        entities: everybody(),
    }
}

/// All 36 identifiers of two origins, in any order; then none is left.
fn all_identifiers(random: &mut Random) -> DayCase {
    let origin = random.between(1, 499);
    let mut keys: Vec<(usize, u8)> = [origin, relation(random, origin)]
        .into_iter()
        .flat_map(|origin| IDENTIFIERS.map(|identifier| (origin, identifier)))
        .collect();
    shuffle(random, &mut keys);
    let opening = open_to_everybody(random);
    let mut desk = Desk::new(random, accepted("all identifiers", opening));
    for (origin, identifier) in keys {
        let draft = desk.file_from(origin, identifier);
        if desk.random.once_in(12) {
            desk.present_damaged(&draft);
        }
        desk.present_good("fresh", draft);
    }
    for _ in 0..4 {
        let used = *desk.random.pick(IDENTIFIERS);
        let draft = desk.file_from(origin, used);
        desk.present_good("none left", draft);
        desk.next_file();
    }
    desk.close()
}

/// The most that one origin can present: 36 good files of 10,000 records, naming everybody.
pub fn full_day(random: &mut Random) -> Day {
    let opening = open_to_everybody(random);
    let rules = accepted("full day", opening.clone()).rules;
    let members: Vec<usize> = (1..500).collect();
    let origin = *random.pick(&members);
    let mut day = Day::new(opening);
    for &identifier in IDENTIFIERS {
        let mut draft = long_file(random, &rules, &members, 10_000);
        put_origin(random, &mut draft, origin);
        draft.records[0][33] = identifier;
        day.push(&draft.bytes());
    }
    day
}

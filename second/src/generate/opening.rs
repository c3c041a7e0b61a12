//! Openings: good ones of all rosters, and those to be refused.

use super::draft::get_number;
use super::entities::any_currency;
use super::faults::NO_DATES;
use super::good::any_date;
use super::random::Random;
use crate::day::Opening;
use crate::fields::is_date;
use crate::{Currency, Refusal, Rules};

/// An opening, its answer, and what the files presented afterwards meet.
pub struct Opened {
    pub family: &'static str,
    pub opening: Opening,
    pub answer: Result<(), Refusal>,
    pub rules: Rules,
}

/// The neighbours of 1 and 499 often.
const NO_ENTITIES: [u64; 16] = [
    0,
    0,
    0,
    500,
    500,
    500,
    501,
    999,
    1_000,
    1_001,
    4_010_001,
    (1 << 8) + 500,
    (1 << 16) + 1,
    (1 << 32) + 401,
    (1 << 63) + 1,
    u64::MAX,
];

pub fn any_opening(random: &mut Random) -> Opened {
    let currency = any_currency(random);
    let opening = Opening {
        date: any_date(random),
        currency,
        entities: any_list(random),
    };
    match random.below(24) {
        0 => of_no_date(random, opening, "no date"),
        1 | 2 => of_no_entity(random, opening),
        3 if random.once_in(2) => {
            // Both at once: the date is judged first.
            let opening = of_no_entity(random, opening).opening;
            of_no_date(random, opening, "neither date nor entity")
        }
        _ => accepted("opening", opening),
    }
}

pub fn accepted(family: &'static str, opening: Opening) -> Opened {
    let mut roster = [false; 500];
    for &entity in &opening.entities {
        roster[entity as usize] = true;
    }
    let rules = Rules {
        date: opening.date,
        currency: opening.currency,
        roster,
    };
    Opened {
        family,
        opening,
        answer: Ok(()),
        rules,
    }
}

pub fn refused(family: &'static str, opening: Opening, number: u16) -> Opened {
    Opened {
        family,
        opening,
        answer: Err(Refusal { number, place: 0 }),
        rules: Rules {
            date: 101,
            currency: Currency::Pesos,
            roster: [false; 500],
        },
    }
}

pub fn of_no_date(random: &mut Random, mut opening: Opening, family: &'static str) -> Opened {
    let text = *random.pick(NO_DATES);
    let spelled = get_number(text, 1, text.len());
    let good = opening.date;
    opening.date = *random.pick(&[
        spelled,
        spelled,
        0,
        1,
        100,
        // A good date with more digits before it, or its last 32 bits.
        good + 1_000_000,
        good + 20_000_000,
        good + (1 << 32),
        good + (1 << 63),
        1_000_101,
        u64::MAX,
    ]);
    refused(family, opening, 75)
}

pub fn of_no_entity(random: &mut Random, mut opening: Opening) -> Opened {
    for _ in 0..*random.pick(&[1, 1, 2]) {
        let place = match random.below(3) {
            0 => 0,
            1 => opening.entities.len(),
            _ => random.between(0, opening.entities.len()),
        };
        opening.entities.insert(place, *random.pick(&NO_ENTITIES));
    }
    refused("no entity", opening, 208)
}

/// Everybody, many, few, one or nobody; unordered, often with repeats.
fn any_list(random: &mut Random) -> Vec<u64> {
    let mut list: Vec<u64> = match random.below(12) {
        0 => Vec::new(),
        1 => some(random, 1),
        2 | 3 => everybody(),
        4 | 5 => everybody()
            .into_iter()
            .filter(|_| random.once_in(2))
            .collect(),
        6 => vec![1, 499],
        _ => {
            let few = random.between(2, 9);
            some(random, few)
        }
    };
    if random.once_in(3) {
        let repeats: Vec<u64> = list.iter().copied().filter(|_| random.once_in(3)).collect();
        list.extend(repeats);
    }
    if !random.once_in(4) {
        shuffle(random, &mut list);
    }
    list
}

pub fn everybody() -> Vec<u64> {
    (1..=499).collect()
}

fn some(random: &mut Random, count: usize) -> Vec<u64> {
    (0..count)
        .map(|_| {
            let any = random.between(1, 499) as u64;
            *random.pick(&[1, 499, any, any, any, any])
        })
        .collect()
}

pub fn shuffle<T>(random: &mut Random, list: &mut [T]) {
    for last in (1..list.len()).rev() {
        list.swap(last, random.below(last + 1));
    }
}

/// An opening that gives these rules, unless no opening does.
fn opening_for(random: &mut Random, rules: &Rules) -> Opened {
    let mut opening = Opening::of(rules);
    let entities = &mut opening.entities;
    if random.once_in(3) {
        entities.extend_from_within(..entities.len().min(3));
        shuffle(random, entities);
    }
    if is_date(rules.date) {
        accepted("opening", opening)
    } else {
        refused("no date", opening, 75)
    }
}

/// An opening that gives these rules; where that is allowed, one in twenty-four is refused instead.
pub fn some_opening(random: &mut Random, rules: &Rules, or_refused: bool) -> Opened {
    if or_refused && random.once_in(24) {
        refused_opening(random, rules)
    } else {
        opening_for(random, rules)
    }
}

/// The session is then that of 000101, pesos, nobody, and sometimes the file would suit it but for the roster.
fn refused_opening(random: &mut Random, rules: &Rules) -> Opened {
    let opening = opening_for(random, rules).opening;
    if random.once_in(2) {
        of_no_date(random, opening, "no date")
    } else {
        of_no_entity(random, opening)
    }
}

//! Rules that do not suit the file: date, currency and roster.

use super::case::{accepted, refused, Answer, Case};
use super::damage::first_use;
use super::draft::{put_number, Draft, Record};
use super::entities::{self, named_in};
use super::good::{any_date, any_file};
use super::handed::Handed;
use super::random::Random;

pub fn damaged_rules(random: &mut Random) -> Case {
    let mut draft = any_file(random);
    let (family, expected) = match random.below(7) {
        0 => ("another date", another_date(random, &mut draft)),
        1 => ("rules of no date", no_date(random, &mut draft)),
        2 => (
            "date of too many digits",
            too_many_digits(random, &mut draft),
        ),
        3 => ("other currency", other_currency(&mut draft)),
        4 => ("empty roster", empty_roster(&mut draft)),
        5 => ("roster of those in use", exact_roster(&mut draft)),
        _ => ("entity struck", strike(random, &mut draft)),
    };
    Case::of(family, &draft, expected)
}

/// The same for an extract, of which the desk and the senders must be on the roster; without the desk it is 208.
pub fn damaged_rules_at_desk(random: &mut Random, handed: &mut Handed) -> (&'static str, Answer) {
    let draft = &mut handed.draft;
    match random.below(7) {
        0 => ("another date", another_date(random, draft)),
        1 => ("rules of no date", no_date(random, draft)),
        2 => ("date of too many digits", too_many_digits(random, draft)),
        3 => {
            // The desk's own header is another's then, and there is no 203.
            other_currency(draft);
            ("other currency", refused(17, 0))
        }
        4 => ("empty roster", empty_roster(draft)),
        5 => ("roster of those in use", roster_of_desk(handed)),
        _ => ("entity struck", strike_at_desk(random, handed)),
    }
}

/// What a batch's sender is called, of whichever currency.
fn sender_of(record: &Record) -> Option<usize> {
    let named = named_in(record).filter(|_| record[0] == b'5');
    named.map(|number| number % 500)
}

fn roster_of_desk(handed: &mut Handed) -> Answer {
    let records = &handed.draft.records;
    let mut roster = [false; 500];
    roster[handed.entity] = true;
    for sender in records.iter().filter_map(sender_of) {
        roster[sender] = true;
    }
    handed.draft.rules.roster = roster;
    accepted(&handed.draft)
}

/// A sender, the desk itself, or anybody else.
fn strike_at_desk(random: &mut Random, handed: &mut Handed) -> Answer {
    let records = &handed.draft.records;
    let senders: Vec<usize> = records.iter().filter_map(sender_of).collect();
    let anybody = random.between(1, 499);
    let struck = match random.below(6) {
        0 => handed.entity,
        1 => anybody,
        _ if senders.is_empty() => anybody,
        _ => *random.pick(&senders),
    };
    let is_struck = |record: &Record| sender_of(record) == Some(struck);
    let place = records.iter().position(is_struck);
    handed.draft.rules.roster[struck] = false;
    match place {
        Some(place) => refused(204, place),
        None => accepted(&handed.draft),
    }
}

pub fn another_date(random: &mut Random, draft: &mut Draft) -> Answer {
    let old = draft.rules.date;
    while draft.rules.date == old {
        let neighbour = old.wrapping_add(1);
        let any = any_date(random);
        draft.rules.date = *random.pick(&[neighbour, any]);
    }
    refused(75, 0)
}

/// The header spells the same number, and yet it is no date.
fn no_date(random: &mut Random, draft: &mut Draft) -> Answer {
    let date = *random.pick(&[
        230_229, 0, 991_332, 1, 100, 229_000, 430, 431, 999_999, 990_229, 1301,
    ]);
    draft.rules.date = date;
    put_number(&mut draft.records[0], 24, 29, date);
    // 430 is the thirtieth of April 2000, the one good date among them.
    if date == 430 {
        accepted(draft)
    } else {
        refused(75, 0)
    }
}

fn too_many_digits(random: &mut Random, draft: &mut Draft) -> Answer {
    let old = draft.rules.date;
    draft.rules.date = *random.pick(&[
        old + 1_000_000,
        old + 20_000_000,
        old + (1 << 32),
        u64::MAX,
        1_000_000,
    ]);
    refused(75, 0)
}

fn other_currency(draft: &mut Draft) -> Answer {
    draft.rules.currency = entities::other_currency(draft.rules.currency);
    refused(203, 0)
}

fn empty_roster(draft: &mut Draft) -> Answer {
    draft.rules.roster = [false; 500];
    refused(204, 0)
}

fn exact_roster(draft: &mut Draft) -> Answer {
    draft.rules.roster = std::array::from_fn(|entity| first_use(draft, entity).is_some());
    accepted(draft)
}

fn strike(random: &mut Random, draft: &mut Draft) -> Answer {
    let on_it: Vec<usize> = (1..500)
        .filter(|&entity| draft.rules.roster[entity])
        .collect();
    let used: Vec<usize> = on_it
        .iter()
        .copied()
        .filter(|&entity| first_use(draft, entity).is_some())
        .collect();
    let struck = if random.once_in(8) {
        *random.pick(&on_it)
    } else {
        *random.pick(&used)
    };
    draft.rules.roster[struck] = false;
    match first_use(draft, struck) {
        Some(place) => refused(204, place),
        None => accepted(draft),
    }
}

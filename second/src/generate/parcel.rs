//! What a desk is handed, before anybody opens it: extracts good and damaged, and house files.

mod house;
mod large;

use super::case::{accepted, refused, Answer, Case};
use super::counters::put_counter_fault;
use super::damage::{put_fault, put_fault_of, two_in_one_record, two_in_two_records};
use super::draft::{put, put_number, Draft};
use super::entities::{field_number, other_currency, relation};
use super::faults::Kind;
use super::files::any_generated;
use super::handed::{any_handed, handed_with_reasons, number_batches, own_field, Handed};
use super::lengths::{damaged_length_of, flip};
use super::numbering::renumber;
use super::random::Random;
use super::session::{another_date, damaged_rules_at_desk};
use super::structure::disorder;
use crate::reading::RECORD;
use crate::Rules;
use house::{house, house_with_own_header, readdressed};

pub use large::{large_parcel, LARGE};

/// The answer that the case expects is the one to the desk it is for, as long as that is on the roster.
pub struct Parcel {
    pub case: Case,
    /// The desk that it is for.
    pub entity: usize,
}

/// How many families there are.
pub const FAMILIES: u64 = 24;

pub fn any_parcel(random: &mut Random, seed: u64, family: u64) -> Parcel {
    match family {
        0..=2 => good("extract", any_handed(random)),
        3 => of_counters(random),
        4 => any_origin(random),
        5..=8 => one_fault(random),
        9 if random.once_in(3) => misnamed_and_misdated(random),
        9 => fault_of(random, "fault in the header", Kind::HandedFileHeader),
        10 => fault_of(random, "fault in a batch header", Kind::HandedBatchHeader),
        11 => fault_of(random, "fault in a record", Kind::HandedIndividual),
        12 => two_faults(random, two_in_one_record),
        13 => two_faults(random, two_in_two_records),
        14 => misnumbered(random),
        15 => foreign(random),
        16 => disordered(random),
        17 => of_another_length(random),
        18 | 19 => flipped(random),
        20 => in_another_session(random),
        21 => house_with_own_header(random),
        22 => house(any_generated(random, seed), random),
        _ => readdressed(random),
    }
}

pub fn good(family: &'static str, handed: Handed) -> Parcel {
    parcel(Case::good(family, &handed.draft), handed.entity)
}

fn parcel(case: Case, entity: usize) -> Parcel {
    Parcel { case, entity }
}

/// 14-23 are any eight digits: nobody's, the other currency's, the desk's own.
fn any_origin(random: &mut Random) -> Parcel {
    let Handed { mut draft, entity } = any_handed(random);
    let mut drawn = [b'0'; 8];
    drawn.fill_with(|| random.digit());
    let own = own_field(draft.rules.currency, entity as u64);
    let odd = [*b"00000000", *b"99999999", *b"05000000", own, drawn, drawn];
    let origin = *random.pick(&odd);
    put(&mut draft.records[0], 15, &origin);
    good("any origin", Handed { draft, entity })
}

/// Extracts keep the counters of their file: those that fall are good, and a fault of theirs is 27 as in the house.
fn of_counters(random: &mut Random) -> Parcel {
    let Handed { mut draft, entity } = handed_with_reasons(random);
    renumber(random, &mut draft);
    if random.once_in(2) {
        return good("falling counters", Handed { draft, entity });
    }
    let expected = put_counter_fault(random, &mut draft);
    parcel(Case::of("counter", &draft, expected), entity)
}

fn one_fault(random: &mut Random) -> Parcel {
    let Handed { mut draft, entity } = handed_with_reasons(random);
    let refusal = put_fault(random, &mut draft, &Kind::HANDED);
    parcel(Case::of("one fault", &draft, refusal), entity)
}

fn fault_of(random: &mut Random, family: &'static str, kind: Kind) -> Parcel {
    let Handed { mut draft, entity } = handed_with_reasons(random);
    let refusal = put_fault_of(random, &mut draft, kind);
    parcel(Case::of(family, &draft, refusal), entity)
}

/// Another's header in a session of another date: the date is judged first, whoever the header names.
fn misnamed_and_misdated(random: &mut Random) -> Parcel {
    let Handed { mut draft, entity } = any_handed(random);
    let currency = draft.rules.currency;
    let (own, near) = (entity as u64, relation(random, entity) as u64);
    let header = &mut draft.records[0];
    match random.below(4) {
        0 => put_number(header, 5, 8, field_number(currency, near)),
        1 => put_number(header, 5, 8, field_number(other_currency(currency), own)),
        2 => put_number(header, 5, 8, *random.pick(&[0, 500, 1_000, 9_999])),
        _ => put_number(header, 9, 12, random.between(1, 9_999) as u64),
    }
    let expected = another_date(random, &mut draft);
    parcel(Case::of("header and date", &draft, expected), entity)
}

fn two_faults(random: &mut Random, put: fn(&mut Random, Draft, &[Kind]) -> Case) -> Parcel {
    let Handed { draft, entity } = handed_with_reasons(random);
    parcel(put(random, draft, &Kind::HANDED), entity)
}

/// The first batch whose number is not its own.
fn first_misnumbered(draft: &Draft) -> Option<usize> {
    let headers = draft.places(|record| record[0] == b'5');
    let mut numbered = headers.into_iter().zip(1..);
    let wrong = numbered.find(|&(place, number)| {
        let own = format!("{number:07}");
        draft.records[place][87..94] != *own.as_bytes()
    });
    wrong.map(|(place, _)| place)
}

/// From 0 or 2 on, one repeated, one left out, as a house file may number them, one of no digits.
fn misnumbered(random: &mut Random) -> Parcel {
    let Handed { mut draft, entity } = handed_with_reasons(random);
    let headers = draft.places(|record| record[0] == b'5');
    let at = random.position(1, headers.len()) - 1;
    let any = random.below(10_000_000) as u64;
    let way = random.below(7);
    for (index, &place) in headers.iter().enumerate() {
        let own = index as u64 + 1;
        let number = match way {
            0 => own - 1,
            1 => own + 1,
            2 if index >= at => own - 1,
            3 if index >= at => own + 1,
            4 => *random.pick(&[own, 0, 1, 9_999_999, any]),
            5 if index == at => own + *random.pick(&[9, 10, 256, 65_536, 1_000_000, any]),
            _ => own,
        };
        put_number(&mut draft.records[place], 88, 94, number);
    }
    if way == 6 {
        let position = random.position(88, 94);
        draft.records[headers[at]][position - 1] =
            random.character_with(|byte| !byte.is_ascii_digit());
    }
    draft.settle();
    let wrong = first_misnumbered(&draft);
    let expected = wrong.map_or(accepted(&draft), |place| refused(17, place));
    parcel(Case::of("batch numbers", &draft, expected), entity)
}

/// Some records to others, of either currency, on the roster or not; the first is the answer.
fn foreign(random: &mut Random) -> Parcel {
    let Handed { mut draft, entity } = handed_with_reasons(random);
    let individuals = draft.places(|record| record[0] == b'6');
    let mut expected = accepted(&draft);
    for &place in individuals.iter().rev() {
        if random.once_in(3) {
            expected = refused(misdirect(random, &mut draft, place, entity), place);
        }
    }
    draft.settle();
    parcel(Case::of("foreign destinations", &draft, expected), entity)
}

/// Somebody else's destination, the other currency's or nobody's, and the number that it gets.
fn misdirect(random: &mut Random, draft: &mut Draft, place: usize, entity: usize) -> u16 {
    let (own, near) = (entity as u64, relation(random, entity) as u64);
    let currency = draft.rules.currency;
    let other = other_currency(currency);
    let (field, number) = match random.below(6) {
        0 | 1 => (field_number(currency, near), 17),
        2 => (field_number(other, near), 203),
        3 => (field_number(other, own), 203),
        _ => (*random.pick(&[0, 500, 1_000, 9_999]), 17),
    };
    let record = &mut draft.records[place];
    put_number(record, 4, 7, field);
    match random.below(6) {
        // Judged behind the destination, and before it.
        0 | 1 => put(record, 12, b"1"),
        2 => {
            put(record, 2, b"33");
            return 17;
        }
        _ => {}
    }
    number
}

fn disordered(random: &mut Random) -> Parcel {
    let Handed { mut draft, entity } = match random.below(4) {
        0 => any_handed(random),
        _ => handed_with_reasons(random),
    };
    let (family, expected) = disorder(random, &mut draft);
    if family == "empty batch" {
        // Its number must not be the first fault.
        number_batches(&mut draft);
    }
    parcel(Case::of(family, &draft, expected), entity)
}

fn of_another_length(random: &mut Random) -> Parcel {
    let Handed { draft, entity } = any_handed(random);
    parcel(damaged_length_of(random, &draft), entity)
}

/// Any byte, or one of those that a desk judges otherwise than the house.
fn flipped(random: &mut Random) -> Parcel {
    let Handed { draft, entity } = handed_with_reasons(random);
    let place = random.below(draft.records.len());
    let (place, from, to) = match random.below(6) {
        0 => (0, 4, 13),
        1 => (0, 14, 23),
        2 => (
            *random.pick(&draft.places(|record| record[0] == b'5')),
            88,
            94,
        ),
        3 => (
            *random.pick(&draft.places(|record| record[0] == b'6')),
            4,
            11,
        ),
        _ => (place, 1, RECORD),
    };
    let at = place * RECORD + random.between(from, to) - 1;
    let (byte, digit, character) = (random.byte(), random.digit(), random.character());
    let value = *random.pick(&[byte, digit, digit, character]);
    parcel(flip(&draft, at, value), entity)
}

fn in_another_session(random: &mut Random) -> Parcel {
    let mut handed = any_handed(random);
    let (family, expected) = damaged_rules_at_desk(random, &mut handed);
    parcel(Case::of(family, &handed.draft, expected), handed.entity)
}

/// Whether 5-12 of a header are this desk's.
fn is_headed(rules: &Rules, file: &[u8], entity: u64) -> bool {
    file.get(4..12) == Some(&own_field(rules.currency, entity))
}

impl Parcel {
    /// The answer to whoever opens it in a session of these rules, where it is known.
    pub fn answer_to(&self, rules: &Rules, entity: u64) -> Answer {
        if !(1..=499).contains(&entity) || !rules.roster[entity as usize] {
            return refused(208, 0);
        }
        if entity == self.entity as u64 {
            return self.case.expected;
        }
        match self.case.expected? {
            // It may be meant for this one.
            _ if is_headed(rules, &self.case.file, entity) => None,
            Err(refusal) if refusal.place == 0 => Some(Err(refusal)),
            _ => refused(17, 0),
        }
    }
}

//! House files handed to a desk: as they are, with its header, or made its own.

use super::{first_misnumbered, good, is_headed, parcel, Parcel};
use crate::generate::addressed::{largest_sums, largest_totals};
use crate::generate::asked::named;
use crate::generate::case::{accepted, refused, Case};
use crate::generate::draft::{get_number, Draft};
use crate::generate::entities::field_number;
use crate::generate::good::any_file;
use crate::generate::handed::{handed, put_own_header, readdress};
use crate::generate::meant::records_of;
use crate::generate::numbering::renumber_some;
use crate::generate::random::Random;
use crate::generate::sums::amount_sums;
use crate::Refusal;

/// A member's file with nothing but its header changed: batches numbered and destinations as the house takes them.
pub fn house_with_own_header(random: &mut Random) -> Parcel {
    let mut draft = any_file(random);
    let entity = *random.pick(&named_in_file(&draft.bytes()));
    put_own_header(&mut draft, entity);
    let own = field_number(draft.rules.currency, entity as u64);
    let individuals = draft.places(|record| record[0] == b'6');
    let foreign = individuals
        .into_iter()
        .find(|&place| get_number(&draft.records[place], 4, 7) != own);
    let faults = [first_misnumbered(&draft), foreign];
    let first = faults.into_iter().flatten().min();
    let expected = first.map_or(accepted(&draft), |place| refused(17, place));
    parcel(
        Case::of("desk's header on a house file", &draft, expected),
        entity,
    )
}

/// Those addressed, or the origin where nobody is.
fn named_in_file(file: &[u8]) -> Vec<usize> {
    let addressed = named(file, b'6');
    let named = if addressed.is_empty() {
        named(file, b'1')
    } else {
        addressed
    };
    named.into_iter().map(|entity| entity as usize).collect()
}

/// A file as members present it, good or damaged: to the desk its header is another's.
pub fn house(case: Case, random: &mut Random) -> Parcel {
    let entity = match named_in_file(&case.file).as_slice() {
        [] => random.between(1, 499),
        named => *random.pick(named),
    };
    let Case { rules, file, .. } = case;
    let expected = match case.expected {
        _ if is_headed(&rules, &file, entity as u64) => None,
        // What kept the house may be what a desk does not judge.
        Some(Err(Refusal {
            number: 17,
            place: 0,
        })) => None,
        Some(Err(Refusal {
            number: 75 | 201,
            place: 0,
        })) => case.expected,
        Some(_) => refused(17, 0),
        None => None,
    };
    parcel(Case::with("house file", rules, file, expected), entity)
}

/// House files that are both, sums at the ends of their fields among them.
pub fn readdressed(random: &mut Random) -> Parcel {
    let (family, rules, file, expected) = match random.below(12) {
        0 => return good("sums of twelve digits", handed(largest_sums(random))),
        1 if random.once_in(2) => {
            return good("totals of eleven digits", handed(largest_totals(random)))
        }
        2 | 3 => {
            let case = amount_sums(random);
            (case.family, case.rules, case.file, case.expected)
        }
        _ => {
            let mut draft = any_file(random);
            renumber_some(random, &mut draft);
            let (file, expected) = (draft.bytes(), accepted(&draft));
            ("house file readdressed", draft.rules, file, expected)
        }
    };
    let records = records_of(&file);
    let mut draft = Draft { rules, records };
    let entity = random.between(1, 499);
    readdress(&mut draft, entity);
    parcel(Case::of(family, &draft, expected), entity)
}

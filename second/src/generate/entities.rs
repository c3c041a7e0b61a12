//! Entities: the fields that name them, rosters, and who is near whom.

use super::draft::{get_number, put, put_number, Draft};
use super::random::Random;
use crate::Currency;

pub fn any_currency(random: &mut Random) -> Currency {
    *random.pick(&[Currency::Pesos, Currency::Dollars])
}

pub fn other_currency(currency: Currency) -> Currency {
    match currency {
        Currency::Pesos => Currency::Dollars,
        Currency::Dollars => Currency::Pesos,
    }
}

/// The entity's number as fields of this currency have it.
pub fn field_number(currency: Currency, entity: u64) -> u64 {
    match currency {
        Currency::Pesos => entity,
        Currency::Dollars => entity.saturating_add(500),
    }
}

/// The entity with any branch.
pub fn entity_field(random: &mut Random, currency: Currency, entity: usize) -> [u8; 8] {
    let any = random.below(10_000);
    let branch = *random.pick(&[0, 1, 9_999, any]);
    let mut field = [b' '; 8];
    put_number(&mut field, 1, 4, field_number(currency, entity as u64));
    put_number(&mut field, 5, 8, branch as u64);
    field
}

pub fn put_origin(random: &mut Random, draft: &mut Draft, origin: usize) {
    let field = entity_field(random, draft.rules.currency, origin);
    put(&mut draft.records[0], 15, &field);
}

/// What the entity field of a record begins with; controls and additionals have none.
pub fn named_in(record: &[u8]) -> Option<usize> {
    let from = match record[0] {
        b'1' => 15,
        b'5' => 80,
        b'6' => 4,
        _ => return None,
    };
    Some(get_number(record, from, from + 3) as usize)
}

pub fn some_entities(random: &mut Random) -> Vec<usize> {
    (0..random.between(1, 6))
        .map(|_| match random.below(5) {
            0 => 1,
            1 => 499,
            _ => random.between(1, 499),
        })
        .collect()
}

/// Full, partial, or only those in use; entity 0 does not exist, so its cell may hold anything.
pub fn roster_with(random: &mut Random, entities: &[usize]) -> [bool; 500] {
    let mut roster = match random.below(3) {
        0 => [true; 500],
        1 => std::array::from_fn(|_| random.once_in(2)),
        _ => [false; 500],
    };
    roster[0] = random.once_in(2);
    for &entity in entities {
        roster[entity] = true;
    }
    roster
}

/// Another entity, whose keys and fields would be the first to be taken for those of this one.
pub fn relation(random: &mut Random, entity: usize) -> usize {
    loop {
        let any = random.between(1, 499);
        let near = [
            entity + 1,
            entity - 1,
            entity + 10,
            entity + 100,
            entity ^ 256,
            any,
        ];
        let other = *random.pick(&near);
        if other != entity && (1..500).contains(&other) {
            return other;
        }
    }
}

//! Standard inputs of the program `positions`: good files, damaged ones, and no files at all.

use super::case::{accepted, refused, Answer};
use super::counters::put_counter_fault;
use super::damage::put_fault;
use super::draft::{get_number, put, Draft};
use super::entities::{any_currency, entity_field, some_entities};
use super::faults::{Kind, NO_DATES};
use super::good::{any_date, long_file, small_file, Amounts, Maker};
use super::numbering::renumber_some;
use super::opening::shuffle;
use super::random::{Random, LISTINGS};
use super::structure::disorder;
use crate::reading::RECORD;
use crate::{Currency, Rules};

pub struct ListingCase {
    pub family: &'static str,
    pub input: Vec<u8>,
    /// The answer of the reading, where it is known.
    pub meant: Answer,
}

/// The records of the longest input.
const LONGEST: usize = 696;

pub fn generate_listing(seed: u64, number: u64) -> ListingCase {
    let mut random = Random::new(seed, LISTINGS + number);
    let rules = any_rules(&mut random);
    match number % 16 {
        0..=3 => good_small(&mut random, &rules),
        4 => good_long(&mut random, &rules),
        5 => everybody(&mut random, rules),
        6 => largest_amounts(&mut random, rules),
        7 => no_date(&mut random, &rules),
        8 | 9 => odd_origin(&mut random, &rules),
        10..=12 => damaged(&mut random, &rules),
        13 | 14 => of_length(&mut random, &rules),
        _ => arbitrary(&mut random, &rules),
    }
}

/// The listing takes date and currency from the file, and everybody is on its roster.
fn any_rules(random: &mut Random) -> Rules {
    Rules {
        date: any_date(random),
        currency: any_currency(random),
        roster: [true; 500],
    }
}

fn case(family: &'static str, draft: &Draft, meant: Answer) -> ListingCase {
    ListingCase {
        family,
        input: draft.bytes(),
        meant,
    }
}

fn any_small(random: &mut Random, rules: &Rules) -> Draft {
    let entities = some_entities(random);
    let mut draft = small_file(random, rules, &entities);
    renumber_some(random, &mut draft);
    draft
}

fn good_small(random: &mut Random, rules: &Rules) -> ListingCase {
    let draft = any_small(random, rules);
    case("good", &draft, accepted(&draft))
}

fn of_records(random: &mut Random, rules: &Rules, records: usize) -> Draft {
    let few = some_entities(random);
    let everybody: Vec<usize> = (1..500).collect();
    let entities = if random.once_in(4) { few } else { everybody };
    let mut draft = long_file(random, rules, &entities, records);
    renumber_some(random, &mut draft);
    draft
}

fn good_long(random: &mut Random, rules: &Rules) -> ListingCase {
    let records = random.between(50, LONGEST);
    let draft = of_records(random, rules, records);
    case("good and long", &draft, accepted(&draft))
}

/// A record to each of the 499: the longest listing there is.
fn everybody(random: &mut Random, rules: Rules) -> ListingCase {
    let mut entities: Vec<usize> = (1..500).collect();
    shuffle(random, &mut entities);
    let batches = random.between(1, 90);
    let mut maker = Maker::among(random, rules, entities.clone());
    // 499 of these stay within twelve digits.
    maker.amounts = Amounts::UpTo(2_000_000_000);
    for part in entities.chunks(499_usize.div_ceil(batches)) {
        maker.batch_with(|maker| {
            for &entity in part {
                let field = entity_field(maker.random, maker.rules.currency, entity);
                maker.destination = Some(field);
                maker.order();
            }
        });
    }
    let draft = maker.finish();
    case("everybody", &draft, accepted(&draft))
}

/// Up to 100 of the largest amounts each way: positions of twelve digits and more.
fn largest_amounts(random: &mut Random, rules: Rules) -> ListingCase {
    let entities = some_entities(random);
    let each = random.between(1, 100);
    let mut maker = Maker::among(random, rules, entities);
    maker.amounts = Amounts::All(9_999_999_999);
    for codes in [[b"37", b"36"], [b"32", b"31"]] {
        maker.batch_with(|maker| {
            for _ in 0..each {
                let code = *maker.random.pick(&codes);
                maker.individual_of(code, b"00", true);
            }
        });
    }
    let draft = maker.finish();
    case("largest amounts", &draft, accepted(&draft))
}

fn no_date(random: &mut Random, rules: &Rules) -> ListingCase {
    let mut draft = any_small(random, rules);
    let position = random.position(24, 29);
    if random.once_in(2) {
        let date = *random.pick(NO_DATES);
        put(&mut draft.records[0], 24, date);
    } else {
        draft.records[0][position - 1] = random.character_with(|byte| !byte.is_ascii_digit());
    }
    case("no date", &draft, refused(75, 0))
}

fn odd_origin(random: &mut Random, rules: &Rules) -> ListingCase {
    const ODD: [&[u8; 4]; 24] = [
        b"    ", b"0500", b"1000", b"0000", b"9999", b"1501", b"0499", b"0501", b"0999", b"0001",
        b" 501", b"501 ", b"05 1", b"O501", b"05O1", b"05A1", b"A501", b"ABCD", b"-501", b"+501",
        b"0:01", b"0/01", b"05/9", b"_501",
    ];
    let mut draft = any_small(random, rules);
    put(&mut draft.records[0], 15, *random.pick(&ODD));
    let origin = &draft.records[0][14..18];
    let digits = origin.iter().all(u8::is_ascii_digit);
    let currency = match get_number(&draft.records[0], 15, 18) {
        1..=499 if digits => Some(Currency::Pesos),
        501..=999 if digits => Some(Currency::Dollars),
        _ => None,
    };
    let batches = draft.records.len() > 2;
    let meant = match currency {
        None => refused(17, 0),
        // The listing follows the origin, so that the first sender is of the other currency.
        Some(currency) if currency != rules.currency && batches => refused(203, 1),
        Some(_) => accepted(&draft),
    };
    case("odd origin", &draft, meant)
}

fn damaged(random: &mut Random, rules: &Rules) -> ListingCase {
    let sound = loop {
        let draft = any_small(random, rules);
        if draft.records.len() > 2 {
            break draft;
        }
    };
    loop {
        let mut draft = sound.clone();
        let meant = match random.below(4) {
            0 => disorder(random, &mut draft).1,
            1 => put_counter_fault(random, &mut draft),
            _ => put_fault(random, &mut draft, &Kind::ALL),
        };
        // Everybody is on this roster, so that nobody can be struck from it.
        if draft.rules.roster == rules.roster {
            return case("damaged", &draft, meant.filter(not_of_session));
        }
    }
}

/// Date and currency of the header are no faults here: the listing follows them.
fn not_of_session(answer: &Result<usize, crate::Refusal>) -> bool {
    !matches!(answer, Err(refusal) if refusal.place == 0 && matches!(refusal.number, 75 | 203))
}

/// Shorter than a header, of a header, of two records, and around the limit.
fn of_length(random: &mut Random, rules: &Rules) -> ListingCase {
    const LENGTHS: [usize; 27] = [
        0, 1, 14, 18, 28, 29, 33, 34, 93, 94, 95, 187, 188, 189, 281, 282, 65_330, 65_423, 65_424,
        65_424, 65_425, 65_426, 65_518, 65_518, 65_519, 70_500, 94_000,
    ];
    let length = *random.pick(&LENGTHS);
    let records = length / RECORD;
    if length.is_multiple_of(RECORD) && records > 40 {
        return whole(random, rules, records);
    }
    let draft = any_small(random, rules);
    let input: Vec<u8> = match random.below(4) {
        0 => (0..length).map(|_| random.byte()).collect(),
        1 => vec![b' '; length],
        _ => draft.bytes().into_iter().cycle().take(length).collect(),
    };
    let judged = length.is_multiple_of(RECORD) && records > 1;
    ListingCase {
        family: "length",
        input,
        meant: if judged { None } else { refused(201, 0) },
    }
}

/// A good file, which only its length can make bad.
fn whole(random: &mut Random, rules: &Rules, records: usize) -> ListingCase {
    let draft = of_records(random, rules, records);
    let meant = if records > LONGEST {
        refused(201, 0)
    } else {
        accepted(&draft)
    };
    case("length of a good file", &draft, meant)
}

/// Bytes that are no file, some behind a good header.
fn arbitrary(random: &mut Random, rules: &Rules) -> ListingCase {
    let records = random.between(2, 12);
    let mut input: Vec<u8> = match random.below(3) {
        0 => (0..records * RECORD).map(|_| random.byte()).collect(),
        1 => (0..records * RECORD).map(|_| random.character()).collect(),
        _ => (0..random.below(1_500)).map(|_| random.byte()).collect(),
    };
    if random.once_in(2) && input.len() >= RECORD {
        let header = any_small(random, rules).records[0];
        input[..RECORD].copy_from_slice(&header);
    }
    ListingCase {
        family: "arbitrary bytes",
        input,
        meant: None,
    }
}

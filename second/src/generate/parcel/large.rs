//! The few large extracts: up to 10,000 records, good, or damaged where a file ends.

use super::{good, parcel, Parcel};
use crate::generate::addressed::{shared_file, Share, ALL, ONE, SEVERAL};
use crate::generate::case::{refused, Answer, Case};
use crate::generate::draft::{put, put_number, Draft};
use crate::generate::entities::{field_number, relation};
use crate::generate::handed::{handed, Handed};
use crate::generate::numbering::renumber_some;
use crate::generate::random::Random;
use crate::reading::RECORD;

/// How many large extracts a run holds; they come first.
pub const LARGE: u64 = 12;

const FAMILY: &str = "10,000 records";
const FULL: usize = 10_000;

pub fn large_parcel(random: &mut Random, number: u64) -> Parcel {
    match number {
        0 => good(FAMILY, full(random, SEVERAL, Share::All)),
        1 => good(FAMILY, full(random, ONE, Share::All)),
        2 => good(FAMILY, full(random, ALL, Share::All)),
        3 => good(FAMILY, full(random, SEVERAL, Share::Half)),
        4 => good(FAMILY, full(random, SEVERAL, Share::OneIn(1_000))),
        5 => damaged(random, SEVERAL, last_control),
        6 => damaged(random, ONE, last_batch),
        7 => damaged(random, SEVERAL, last_destination),
        8 => damaged(random, ALL, one_too_many),
        9 => damaged(random, ALL, cut_before_end),
        10 => damaged(random, SEVERAL, another_desk),
        _ => blanks(random),
    }
}

/// The extract of a file of 10,000 records, whose counters may fall.
fn full(random: &mut Random, each: usize, share: Share) -> Handed {
    let mut addressed = shared_file(random, FULL, each, share);
    renumber_some(random, &mut addressed.draft);
    handed(addressed)
}

fn damaged(
    random: &mut Random,
    each: usize,
    damage: fn(&mut Random, &mut Draft, usize) -> Answer,
) -> Parcel {
    let Handed { mut draft, entity } = full(random, each, Share::All);
    let expected = damage(random, &mut draft, entity);
    parcel(Case::of(FAMILY, &draft, expected), entity)
}

fn last_of(draft: &Draft, kind: u8) -> usize {
    let last = draft.last_before(draft.records.len(), kind);
    last.expect("full files hold every kind")
}

fn last_control(_: &mut Random, draft: &mut Draft, _: usize) -> Answer {
    put(&mut draft.records[FULL - 1], 13, b" ");
    refused(17, FULL - 1)
}

/// The last of more than 3,000 batches takes the next number, or a zero in the place of its digits.
fn last_batch(random: &mut Random, draft: &mut Draft, _: usize) -> Answer {
    let place = last_of(draft, b'5');
    let batches = draft.places(|record| record[0] == b'5').len() as u64;
    let number = *random.pick(&[0, 1, batches - 1, batches + 1]);
    put_number(&mut draft.records[place], 88, 94, number);
    draft.settle();
    refused(17, place)
}

fn last_destination(random: &mut Random, draft: &mut Draft, entity: usize) -> Answer {
    let place = last_of(draft, b'6');
    let foreign = relation(random, entity) as u64;
    let field = field_number(draft.rules.currency, foreign);
    put_number(&mut draft.records[place], 4, 7, field);
    draft.settle();
    refused(17, place)
}

fn one_too_many(_: &mut Random, draft: &mut Draft, _: usize) -> Answer {
    draft.records.push(draft.records[FULL - 1]);
    refused(201, 0)
}

fn cut_before_end(_: &mut Random, draft: &mut Draft, _: usize) -> Answer {
    draft.records.pop();
    refused(17, FULL - 1)
}

fn another_desk(random: &mut Random, draft: &mut Draft, entity: usize) -> Answer {
    let foreign = relation(random, entity) as u64;
    let field = field_number(draft.rules.currency, foreign);
    put_number(&mut draft.records[0], 5, 8, field);
    refused(17, 0)
}

fn blanks(random: &mut Random) -> Parcel {
    let Handed { draft, entity } = handed(shared_file(random, 100, SEVERAL, Share::All));
    let file = vec![b' '; FULL * RECORD];
    let case = Case::with("blanks", draft.rules, file, refused(17, 0));
    parcel(case, entity)
}

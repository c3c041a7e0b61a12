//! Good extracts: as this program writes them, and house files turned into some.

use super::addressed::{
    addressed_file, empty_file, fill_free_positions, rejected_file, renumber_batches, Addressed,
};
use super::draft::{put, put_number, Draft, Record};
use super::entities::field_number;
use super::meant::records_of;
use super::random::Random;
use crate::day::Opening;
use crate::Currency;

/// An extract, and the entity that it was made for.
#[derive(Clone)]
pub struct Handed {
    pub draft: Draft,
    pub entity: usize,
}

/// The extract of a good file, as this program writes it.
pub fn handed(addressed: Addressed) -> Handed {
    let Addressed { draft, entity } = addressed;
    let file = draft.bytes();
    let mut out = vec![0; file.len()];
    let (_, session) = Opening::of(&draft.rules).open();
    let length = session.extract(entity as u64, &file, &mut out);
    out.truncate(length.expect("addressed files are good"));
    let (rules, records) = (draft.rules, records_of(&out));
    let draft = Draft { rules, records };
    Handed { draft, entity }
}

/// All shapes of extracts, header and control only among them.
pub fn any_handed(random: &mut Random) -> Handed {
    match random.below(6) {
        0 | 1 => handed(addressed_file(random)),
        2 => handed(filled(random)),
        3 => handed(empty_file(random)),
        _ => handed_with_reasons(random),
    }
}

fn filled(random: &mut Random) -> Addressed {
    let mut addressed = addressed_file(random);
    fill_free_positions(random, &mut addressed.draft);
    renumber_batches(random, &mut addressed.draft);
    addressed
}

/// An extract in which each batch holds a rejection, with a text or without.
pub fn handed_with_reasons(random: &mut Random) -> Handed {
    let mut addressed = rejected_file(random);
    put_reasons(random, &mut addressed.draft);
    handed(addressed)
}

pub fn is_motive(record: &Record) -> bool {
    record.starts_with(b"799")
}

/// Every R number; texts that are blank, of one character, at either end too, or longer.
fn put_reasons(random: &mut Random, draft: &mut Draft) {
    for record in draft.records.iter_mut().filter(|record| is_motive(record)) {
        let any = random.below(100) as u64;
        put_number(record, 5, 6, *random.pick(&[0, 99, any, any, any]));
        let text = &mut record[35..79];
        if random.once_in(4) {
            text.fill_with(|| random.character());
            continue;
        }
        text.fill(b' ');
        if random.once_in(2) {
            let position = random.position(36, 79);
            record[position - 1] = random.character_with(|byte| byte != b' ');
        }
    }
}

/// A desk's entity as it stands in 5-12 of the header.
pub fn own_field(currency: Currency, entity: u64) -> [u8; 8] {
    let mut field = *b"00000000";
    put_number(&mut field, 1, 4, field_number(currency, entity));
    field
}

/// What 4-13 of the header should be.
pub fn put_own_header(draft: &mut Draft, entity: usize) {
    let own = own_field(draft.rules.currency, entity as u64);
    let header = &mut draft.records[0];
    put(header, 4, b" ");
    put(header, 5, &own);
    put(header, 13, b"0");
}

/// Batches 1, 2, .. with their controls.
pub fn number_batches(draft: &mut Draft) {
    let headers = draft.places(|record| record[0] == b'5');
    for (place, number) in headers.into_iter().zip(1..) {
        put_number(&mut draft.records[place], 88, 94, number);
    }
    draft.settle();
}

/// Makes a house file the desk's: its header, its destinations, its batch numbers. The origin stays, so that the house may read it too.
pub fn readdress(draft: &mut Draft, entity: usize) {
    draft.rules.roster[entity] = true;
    put_own_header(draft, entity);
    let own = own_field(draft.rules.currency, entity as u64);
    let individuals = draft.records.iter_mut().filter(|record| record[0] == b'6');
    individuals.for_each(|record| put(record, 4, &own[..4]));
    number_batches(draft);
}

//! The extract that a good file should give, made as a draft whose controls are computed anew.

use super::draft::{get_number, put, put_number, Draft, Record};
use super::entities::field_number;
use crate::reading::RECORD;
use crate::Rules;

/// The records of bytes that may be no file; what is left over at the end is none.
pub fn records_of(file: &[u8]) -> Vec<Record> {
    let whole = file.chunks_exact(RECORD);
    whole
        .map(|record| std::array::from_fn(|index| record[index]))
        .collect()
}

/// Individual records to the entity, each with the additionals behind it, batch by batch.
fn batches_to(records: &[Record], entity: u64) -> Vec<(Record, Vec<Record>)> {
    let mut batches = Vec::new();
    for batch in records.split(|record| record[0] == b'8') {
        let Some(start) = batch.iter().position(|record| record[0] == b'5') else {
            continue;
        };
        let body = &batch[start + 1..];
        let entries: Vec<Record> = (0..body.len())
            .filter(|&place| {
                let owner = (0..=place).rev().find(|&place| body[place][0] == b'6');
                let owner = owner.filter(|_| matches!(body[place][0], b'6' | b'7'));
                owner.is_some_and(|owner| get_number(&body[owner], 4, 7) == entity)
            })
            .map(|place| body[place])
            .collect();
        if !entries.is_empty() {
            batches.push((batch[start], entries));
        }
    }
    batches
}

/// The extract's length: 94 * (2 + 2 * batches + records and additionals to the entity).
pub fn extract_length(rules: &Rules, entity: u64, file: &[u8]) -> usize {
    let batches = batches_to(&records_of(file), field_number(rules.currency, entity));
    let entries: usize = batches.iter().map(|(_, entries)| entries.len()).sum();
    RECORD * (2 + 2 * batches.len() + entries)
}

/// The extract of a file that the reading accepts, for an entity on the roster.
pub fn extract_of(rules: &Rules, entity: u64, file: &[u8]) -> Vec<u8> {
    let records = records_of(file);
    let entity = field_number(rules.currency, entity);
    let mut extract = vec![header_to(&records[0], entity)];
    for (index, (header, entries)) in batches_to(&records, entity).into_iter().enumerate() {
        let mut numbered = header;
        put_number(&mut numbered, 88, 94, index as u64 + 1);
        extract.push(numbered);
        extract.extend(entries);
        extract.push(blank(b'8'));
    }
    extract.push(blank(b'9'));
    let mut draft = Draft {
        rules: rules.clone(),
        records: extract,
    };
    draft.settle();
    draft.bytes()
}

pub fn blank(kind: u8) -> Record {
    let mut record = [b' '; RECORD];
    record[0] = kind;
    record
}

fn header_to(old: &Record, entity: u64) -> Record {
    let mut header = *old;
    let name = format!(" {entity:04}00000");
    put(&mut header, 4, name.as_bytes());
    put(&mut header, 14, &old[3..13]);
    put(&mut header, 41, &old[63..86]);
    put(&mut header, 64, &old[40..63]);
    header
}

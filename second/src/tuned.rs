//! The reading once more, tuned for speed: the answers of `reading`, by a loop, a character test and a parsing of its own.

mod batch;
mod characters;
mod controls;
mod file;
mod header;
mod individual;
mod judge;
mod picture;
mod records;
mod refusals;
mod repeats;
mod spans;
mod words;

use crate::reading::{MOST_RECORDS, RECORD};
use crate::refusal::{FORMAT, LENGTH};
use crate::{Refusal, Rules};

/// The number of records of a good file.
pub fn read(rules: &Rules, file: &[u8]) -> Result<usize, Refusal> {
    let records = file.len() / RECORD;
    if !(2..=MOST_RECORDS).contains(&records) || !file.len().is_multiple_of(RECORD) {
        return Err(Refusal::of_no_record(LENGTH));
    }
    let clean = characters::clean_records(file);
    file::read(rules, &file[..clean * RECORD])?;
    if clean < records {
        // The records before it were a whole file: what follows is as wrong by its place as by its characters.
        return Err(Refusal {
            number: FORMAT,
            place: clean,
        });
    }
    Ok(records)
}

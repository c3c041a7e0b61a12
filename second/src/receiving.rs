//! Receiving: a member's desk reads the extract that it was handed.

use crate::reader::Reader;
use crate::reading::read_by;
use crate::refusal::ENTITY_NUMBER;
use crate::{Refusal, Rules};

/// The number of records of a good extract. Nothing is posted and no identifier used up: the rules are all it takes of a session.
pub fn receive(rules: &Rules, entity: u64, file: &[u8]) -> Result<usize, Refusal> {
    let desk = Reader::desk(rules, entity);
    read_by(desk.ok_or(Refusal::of_no_record(ENTITY_NUMBER))?, file)
}

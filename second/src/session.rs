//! Opening a session, and presenting files to it.

use crate::fields::{entity, field, is_date};
use crate::posting::{postings, Posting};
use crate::refusal::{DATE, ENTITY_NUMBER, IDENTIFIER};
use crate::{read, Currency, Refusal, Rules};
use std::collections::BTreeSet;

/// One for each number up to 499; cell 0 belongs to no entity and stays at zeros.
pub const CELLS: usize = 500;

#[derive(Clone, Copy, Debug, Default, PartialEq, Eq)]
pub struct Cell {
    /// In cents; negative where the entity pays.
    pub position: i64,
    /// Individual records sent and received.
    pub sent: u64,
    pub received: u64,
}

#[derive(Clone, Debug, PartialEq, Eq)]
pub struct Session {
    rules: Rules,
    cells: [Cell; CELLS],
    /// Origin's entity number, without branch, and identifier of each accepted file.
    accepted: BTreeSet<(usize, u8)>,
}

impl Session {
    /// The answer, and the session that comes with it in either case.
    pub fn open(date: u64, currency: Currency, entities: &[u64]) -> (Result<(), Refusal>, Session) {
        match opening_rules(date, currency, entities) {
            Ok(rules) => (Ok(()), Session::new(rules)),
            Err(number) => (
                Err(Refusal::of_no_record(number)),
                Session::new(rules_when_refused()),
            ),
        }
    }

    fn new(rules: Rules) -> Self {
        Session {
            rules,
            cells: [Cell::default(); CELLS],
            accepted: BTreeSet::new(),
        }
    }

    /// Nothing is touched before the whole file was read and its identifier found unused.
    pub fn present(&mut self, file: &[u8]) -> Result<(), Refusal> {
        read(&self.rules, file)?;
        let key = key(file).expect("an accepted header holds an entity field");
        if !self.accepted.insert(key) {
            return Err(Refusal::of_no_record(IDENTIFIER));
        }
        for posting in postings(file) {
            self.post(&posting);
        }
        Ok(())
    }

    fn post(&mut self, posting: &Posting) {
        // One after the other, so that an entity sending to itself nets nothing.
        let sender = &mut self.cells[posting.sender];
        sender.position += posting.to_sender();
        sender.sent += 1;
        let destination = &mut self.cells[posting.destination];
        destination.position -= posting.to_sender();
        destination.received += 1;
    }

    pub fn rules(&self) -> &Rules {
        &self.rules
    }

    pub fn cell(&self, entity: usize) -> Cell {
        self.cells[entity]
    }

    /// By entity number, from 0 to 499.
    pub fn cells(&self) -> &[Cell; CELLS] {
        &self.cells
    }
}

/// The date is judged before the list.
fn opening_rules(date: u64, currency: Currency, entities: &[u64]) -> Result<Rules, u16> {
    if !is_date(date) {
        return Err(DATE);
    }
    let mut roster = [false; CELLS];
    for &entity in entities {
        if !(1..=499).contains(&entity) {
            return Err(ENTITY_NUMBER);
        }
        roster[entity as usize] = true;
    }
    Ok(Rules {
        date,
        currency,
        roster,
    })
}

fn rules_when_refused() -> Rules {
    Rules {
        date: 101,
        currency: Currency::Pesos,
        roster: [false; CELLS],
    }
}

/// Origin without its branch, and identifier.
fn key(file: &[u8]) -> Option<(usize, u8)> {
    let origin = entity(field(file, 15, 22))?;
    Some((origin.number, file[33]))
}

//! A day at the desk: an opening, and the files presented one after another.

use crate::listing::positions;
use crate::session::CELLS;
use crate::{Cell, Currency, Refusal, Rules, Session};

type Answer = Result<(), Refusal>;

#[derive(Clone, Debug)]
pub struct Opening {
    pub date: u64,
    pub currency: Currency,
    pub entities: Vec<u64>,
}

impl Opening {
    /// The opening that gives these rules, where their date is one.
    pub fn of(rules: &Rules) -> Self {
        let listed = (1..500).filter(|&entity| rules.roster[entity as usize]);
        Opening {
            date: rules.date,
            currency: rules.currency,
            entities: listed.collect(),
        }
    }

    pub fn open(&self) -> (Answer, Session) {
        Session::open(self.date, self.currency, &self.entities)
    }
}

/// The files lie one behind the other, as the proved library takes them.
#[derive(Clone, Debug)]
pub struct Day {
    pub opening: Opening,
    bytes: Vec<u8>,
    ends: Vec<u64>,
}

/// Everything that a day leaves behind.
#[derive(Clone, Debug, PartialEq, Eq)]
pub struct Outcome {
    pub opening: Answer,
    pub answers: Vec<Answer>,
    /// By entity number, at the end of the day.
    pub cells: [Cell; CELLS],
}

impl Day {
    pub fn new(opening: Opening) -> Self {
        Day {
            opening,
            bytes: Vec::new(),
            ends: Vec::new(),
        }
    }

    pub fn push(&mut self, file: &[u8]) {
        self.bytes.extend_from_slice(file);
        self.ends.push(self.bytes.len() as u64);
    }

    /// The same day, left after so many files.
    pub fn until(&self, files: usize) -> Day {
        let ends = self.ends[..files].to_vec();
        let length = ends.last().map_or(0, |&end| end as usize);
        Day {
            opening: self.opening.clone(),
            bytes: self.bytes[..length].to_vec(),
            ends,
        }
    }

    pub fn bytes(&self) -> &[u8] {
        &self.bytes
    }

    /// Where each file ends, in bytes from the first file's beginning.
    pub fn ends(&self) -> &[u64] {
        &self.ends
    }

    pub fn files(&self) -> impl Iterator<Item = &[u8]> {
        let begins = std::iter::once(&0).chain(&self.ends);
        let parts = begins.zip(&self.ends);
        parts.map(|(&begin, &end)| &self.bytes[begin as usize..end as usize])
    }

    pub fn run(&self) -> Outcome {
        let (opening, answers, session) = self.close();
        Outcome {
            opening,
            answers,
            cells: *session.cells(),
        }
    }

    /// The listing of the session at the end of the day.
    pub fn listing(&self) -> Vec<u8> {
        let (_, _, session) = self.close();
        positions(&session).into_bytes()
    }

    /// A refused opening returns a session too, and the files are presented to that.
    fn close(&self) -> (Answer, Vec<Answer>, Session) {
        let (opening, mut session) = self.opening.open();
        let answers = self.files().map(|file| session.present(file)).collect();
        (opening, answers, session)
    }
}

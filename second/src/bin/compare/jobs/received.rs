//! Both programs on generated receivings.

use super::counters::Refused;
use super::job::{Job, Seen};
use super::readings::is_named;
use super::showing::show_and_keep;
use second::fields::entity;
use second::generate::receive::{generate_received, ReceiveCase};
use second::{proved, receive, Currency, Refusal};
use std::ops::Range;

/// The two names of a file header, and the number of a batch header.
pub const DESK: Range<usize> = 4..12;
pub const ORIGIN: Range<usize> = 14..22;
const NUMBER: Range<usize> = 87..94;
const DESTINATION: Range<usize> = 3..11;

impl Job for ReceiveCase {
    type Answer = Result<usize, Refusal>;
    const JOB: &'static str = "received";
    const CASE: &'static str = "received";
    const GENERATE: fn(u64, u64) -> Self = generate_received;

    fn by_second(&self) -> Self::Answer {
        match proved::not_opened(&self.opening) {
            Some(refusal) => Err(refusal),
            None => self.run(),
        }
    }

    fn by_proved(&self) -> Result<Self::Answer, String> {
        Ok(proved::receive(&self.opening, self.entity, &self.file))
    }

    fn check(&self, _: u64, answer: &Self::Answer) -> Result<(), String> {
        // What the second program does in the session of nobody is still what was meant.
        ReceiveCase::check(
            self,
            if was_opened(answer) {
                *answer
            } else {
                self.run()
            },
        )
    }

    fn shows(seen: &Seen<Self>, name: &str) -> u64 {
        let named = name == Self::JOB || name == seen.case.family;
        u64::from(named || is_named(seen.answer, name))
    }

    fn show(&self, ours: &Self::Answer, theirs: &Result<Self::Answer, String>, name: &str) {
        println!("{}, for {}", self.family, self.made_for);
        println!("{:?}", self.opening);
        println!("received by {}, meant {:?}", self.entity, self.meant);
        println!("second: {ours:?}");
        println!("proved: {theirs:?}");
        show_and_keep(&self.file, 94, name);
    }
}

pub fn was_opened<T>(answer: &Result<T, Refusal>) -> bool {
    let refusal = answer.as_ref().err();
    refusal.is_none_or(|refusal| refusal.place != proved::OPENING)
}

impl Seen<ReceiveCase> {
    pub fn is_accepted(&self) -> bool {
        self.answer.is_ok()
    }

    pub fn accepted_in(&self, currency: Currency) -> bool {
        self.is_accepted() && self.case.rules.currency == currency
    }

    /// In a session that was opened.
    pub fn refused(&self, number: u16) -> bool {
        let refusal = self.answer.err().filter(|_| was_opened(&self.answer));
        refusal.is_some_and(|refusal| refusal.number == number)
    }

    pub fn refused_at_header(&self, number: u16) -> bool {
        self.refused(number) && self.place() == Some(0)
    }

    fn place(&self) -> Option<usize> {
        self.answer.err().map(|refusal| refusal.place)
    }

    pub fn entity(&self) -> u64 {
        self.case.entity
    }

    pub fn is_by_nobody(&self) -> bool {
        !(1..=499).contains(&self.entity())
    }

    pub fn is_for_another(&self) -> bool {
        self.entity() != self.case.made_for as u64
    }

    /// Whether the desk that it is for would be refused too, by the reading.
    pub fn is_damaged(&self) -> bool {
        let answer = receive(&self.case.rules, self.case.made_for as u64, &self.case.file);
        answer.is_err_and(|refusal| refusal.number != 208)
    }

    pub fn records(&self) -> usize {
        self.case.file.len() / 94
    }

    pub fn batches(&self) -> usize {
        let records = self.case.file.chunks_exact(94);
        records.filter(|record| record[0] == b'5').count()
    }

    /// The desk's own name in a file header.
    pub fn own(&self) -> Vec<u8> {
        let number = self.entity() + self.case.rules.currency.added();
        format!("{number:04}0000").into_bytes()
    }

    pub fn header(&self) -> &[u8] {
        self.case.file.get(..94).unwrap_or(&[])
    }

    /// Whether it is refused for the counter of another batch.
    pub fn repeats(&self) -> bool {
        let place = self.place().filter(|_| self.refused(27));
        let refused = place.and_then(|place| Refused::at(&self.case.file, place));
        refused.is_some_and(|refused| refused.repeats())
    }

    /// The individual records of an accepted file.
    pub fn individuals(&self) -> Vec<&[u8]> {
        let records = self.case.file.chunks_exact(94);
        records
            .filter(|record| self.is_accepted() && record[0] == b'6')
            .collect()
    }

    /// Whether the refusal is another, or none, once this field of its record holds that.
    pub fn is_cured_by(&self, field: Range<usize>, text: &[u8]) -> bool {
        let (Some(place), true) = (self.place(), was_opened(&self.answer)) else {
            return false;
        };
        let mut file = self.case.file.clone();
        let Some(record) = file.chunks_exact_mut(94).nth(place) else {
            return false;
        };
        record[field].copy_from_slice(text);
        receive(&self.case.rules, self.entity(), &file) != self.answer
    }

    /// The name in a header that is refused for nothing else than that it is not the desk's.
    pub fn other_desk(&self) -> Option<&[u8]> {
        let named = self.header().get(DESK)?;
        let other = self.refused_at_header(17) && named.iter().all(u8::is_ascii_digit);
        Some(named).filter(|_| other && self.is_cured_by(DESK, &self.own()))
    }

    /// The same, where that is somebody of this currency at branch 0000.
    pub fn other_desk_listed(&self) -> Option<bool> {
        let named = self.other_desk().filter(|named| named.ends_with(b"0000"))?;
        let named = entity(named).filter(|named| named.currency == self.case.rules.currency);
        Some(self.case.rules.roster[named?.number])
    }

    /// Whether one of the other currency has the desk's own number.
    pub fn other_desk_is_own(&self) -> Option<bool> {
        let named = entity(self.other_desk()?)?;
        let other = named.currency != self.case.rules.currency;
        other.then_some(named.number as u64 == self.entity())
    }

    /// The record at which it is refused so, where it is of this type.
    pub fn refused_at(&self, number: u16, kind: u8) -> Option<&[u8]> {
        let place = self.place().filter(|_| self.refused(number))?;
        let record = self.case.file.chunks_exact(94).nth(place)?;
        (record[0] == kind).then_some(record)
    }

    /// The number of a batch that is refused for nothing else, and the one that it should have.
    pub fn wrong_number(&self) -> Option<(&[u8], u64)> {
        let number = &self.refused_at(17, b'5')?[NUMBER];
        let before = self.case.file.chunks_exact(94).take(self.place()?);
        let own = 1 + before.filter(|record| record[0] == b'5').count() as u64;
        let cured = self.is_cured_by(NUMBER, format!("{own:07}").as_bytes());
        cured.then_some((number, own))
    }

    /// The same as numbers.
    pub fn wrong_digits(&self) -> Option<(u64, u64)> {
        let (number, own) = self.wrong_number()?;
        Some((second::fields::number(number)?, own))
    }

    /// The destination that is refused so for nothing else.
    pub fn wrong_destination(&self, number: u16) -> Option<&[u8]> {
        let record = self.refused_at(number, b'6')?;
        let cured = self.is_cured_by(DESTINATION, &self.own());
        cured.then_some(&record[DESTINATION])
    }

    /// Whether somebody else of the same currency, refused as a destination, is on the roster.
    pub fn foreign_listed(&self) -> Option<bool> {
        let named = entity(self.wrong_destination(17)?)?;
        Some(self.case.rules.roster[named.number])
    }

    /// Whether 77 would come behind the fault in an individual record refused so.
    pub fn is_before_77(&self, number: u16) -> bool {
        let record = self.refused_at(number, b'6');
        record.is_some_and(|record| record[11] != b'0')
    }

    /// Whether a destination of the other currency is the desk's own number.
    pub fn other_currency_is_own(&self) -> Option<bool> {
        let named = entity(self.wrong_destination(203)?)?;
        Some(named.number as u64 == self.entity())
    }
}

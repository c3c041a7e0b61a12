//! Types 6 and 7: the individual record and its additional.

use crate::counters::Counters;
use crate::fields::{all_blank, all_digits, entity, field, number};
use crate::reader::Reader;
use crate::refusal::{
    require, ACCOUNT, ADDITIONAL, AMOUNT, COUNTER, FORMAT, INFORMATION, REFERENCE, RESERVED,
};

#[derive(Clone, Copy, Debug, PartialEq, Eq)]
pub enum Code {
    Order,
    Rejection,
    Reversal,
    ReversalRejection,
}

impl Code {
    pub fn of(record: &[u8]) -> Option<Code> {
        match field(record, 2, 3) {
            b"37" => Some(Code::Order),
            b"36" => Some(Code::Rejection),
            b"32" => Some(Code::Reversal),
            b"31" => Some(Code::ReversalRejection),
            _ => None,
        }
    }

    pub fn is_debit(self) -> bool {
        matches!(self, Code::Order | Code::Rejection)
    }

    fn is_rejection(self) -> bool {
        matches!(self, Code::Rejection | Code::ReversalRejection)
    }
}

/// What the rest of the file needs of an individual record found good.
#[derive(Clone, Copy)]
pub struct Individual<'a> {
    pub code: Code,
    /// Fields 4-11 as a number, for the control totals.
    pub destination: u64,
    pub amount: u64,
    /// 80-94: sender and sequence.
    pub counter: &'a [u8],
}

impl<'a> Individual<'a> {
    /// The counters are those of the individual records before it.
    pub fn check(
        reader: &Reader,
        sender: &[u8],
        counters: &mut Counters,
        record: &'a [u8],
    ) -> Result<Self, u16> {
        let code = Code::of(record).ok_or(FORMAT)?;
        let destination = entity(field(record, 4, 11)).ok_or(FORMAT)?;
        reader.admit_destination(destination, field(record, 4, 11))?;
        require(record[11] == b'0', RESERVED)?;
        require(all_digits(field(record, 13, 29)), ACCOUNT)?;
        let amount = number(field(record, 30, 39))
            .filter(|&amount| amount > 0)
            .ok_or(AMOUNT)?;
        require(!all_blank(field(record, 40, 54)), REFERENCE)?;
        require(!all_blank(field(record, 55, 76)), FORMAT)?;
        check_information(code, record)?;
        let counter_sender = field(record, 80, 87);
        require(all_digits(counter_sender), FORMAT)?;
        let sequence = number(field(record, 88, 94)).ok_or(FORMAT)?;
        require(counter_sender == sender, COUNTER)?;
        require(counters.take(sequence), COUNTER)?;
        Ok(Individual {
            code,
            destination: destination.value,
            amount,
            counter: field(record, 80, 94),
        })
    }

    /// The additional that follows this individual record.
    pub fn check_additional(&self, record: &[u8]) -> Result<(), u16> {
        match (field(record, 2, 3), self.code.is_rejection()) {
            (b"99", true) => self.check_motive(record),
            (b"05", false) => self.check_concept(record),
            _ => Err(ADDITIONAL),
        }
    }

    fn check_motive(&self, record: &[u8]) -> Result<(), u16> {
        require(record[3] == b'R' && all_digits(field(record, 5, 6)), FORMAT)?;
        require(all_digits(field(record, 7, 21)), FORMAT)?;
        require(all_blank(field(record, 22, 27)), FORMAT)?;
        require(all_digits(field(record, 28, 35)), FORMAT)?;
        require(field(record, 80, 94) == self.counter, ADDITIONAL)
    }

    fn check_concept(&self, record: &[u8]) -> Result<(), u16> {
        require(all_digits(field(record, 84, 87)), FORMAT)?;
        require(field(record, 88, 94) == &self.counter[8..], ADDITIONAL)
    }
}

/// Positions 77-79: which transaction, and whether an additional follows.
fn check_information(code: Code, record: &[u8]) -> Result<(), u16> {
    let plain = match field(record, 77, 78) {
        b"00" => true,
        b"01" if code.is_debit() => false,
        _ => return Err(INFORMATION),
    };
    require(matches!(record[78], b'0' | b'1'), FORMAT)?;
    require(
        has_additional(record) || (code == Code::Order && plain),
        ADDITIONAL,
    )
}

pub fn has_additional(individual: &[u8]) -> bool {
    individual[78] == b'1'
}

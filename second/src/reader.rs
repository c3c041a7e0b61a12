//! Who reads: the house what a member presents, or a member's desk what the house has handed it.

use crate::fields::{all_digits, entity, number, Entity};
use crate::refusal::{require, FORMAT, OTHER_CURRENCY};
use crate::rules::{Digits, Rules};

/// The branch of a desk in the header of its extracts.
const BRANCH: &[u8] = b"0000";

/// All rules but these are the same for both.
#[derive(Clone, Copy)]
pub struct Reader<'a> {
    pub rules: &'a Rules,
    /// The desk's own entity; none where the house reads.
    desk: Option<Digits>,
}

impl<'a> Reader<'a> {
    pub fn house(rules: &'a Rules) -> Self {
        Reader { rules, desk: None }
    }

    /// None for an entity that may not ask for an extract either.
    pub fn desk(rules: &'a Rules, entity: u64) -> Option<Self> {
        let desk = Some(rules.digits(entity)?);
        Some(Reader { rules, desk })
    }

    /// The eight digits in 15-22 of the file header. To a desk they are what the member wrote as destination, and may be any.
    pub(crate) fn check_origin(&self, origin: &[u8]) -> Result<(), u16> {
        let takes = match self.desk {
            None => entity(origin).is_some(),
            Some(_) => all_digits(origin),
        };
        require(takes, FORMAT)
    }

    /// The last check of the file header: whom it concerns. To a desk that is itself and nobody else, in whichever currency.
    pub(crate) fn admit_header(&self, destination: &[u8], origin: &[u8]) -> Result<(), u16> {
        match self.desk {
            None => self.rules.admit(entity(origin).ok_or(FORMAT)?),
            Some(own) => require(destination.strip_prefix(&own) == Some(BRANCH), FORMAT),
        }
    }

    /// The number of a batch, of which so many stand before it.
    pub(crate) fn check_batch_number(&self, field: &[u8], before: u64) -> Result<(), u16> {
        let takes = match self.desk {
            None => all_digits(field),
            Some(_) => number(field) == Some(before + 1),
        };
        require(takes, FORMAT)
    }

    /// A destination and the field that it was read from; its currency is judged first by both.
    pub(crate) fn admit_destination(&self, entity: Entity, field: &[u8]) -> Result<(), u16> {
        let Some(own) = self.desk else {
            return self.rules.admit(entity);
        };
        require(entity.currency == self.rules.currency, OTHER_CURRENCY)?;
        require(field.starts_with(&own), FORMAT)
    }
}

//! What a reading takes from its session: date, currency and roster.

use crate::currency::Currency;
use crate::fields::{write_number, Entity};
use crate::refusal::{require, NOT_ON_ROSTER, OTHER_CURRENCY};

/// An entity as it stands in the first half of an entity field of the session's currency.
pub type Digits = [u8; 4];

#[derive(Clone, Debug, PartialEq, Eq)]
pub struct Rules {
    /// AAMMDD, as the number those digits spell.
    pub date: u64,
    pub currency: Currency,
    /// `roster[e]` says whether entity `e` is on it.
    pub roster: [bool; 500],
}

impl Rules {
    /// The currency is judged before the roster: the first fault is the answer.
    pub(crate) fn admit(&self, entity: Entity) -> Result<(), u16> {
        require(entity.currency == self.currency, OTHER_CURRENCY)?;
        require(self.roster[entity.number], NOT_ON_ROSTER)
    }

    /// None for a number that is no entity's, or for an entity not on the roster.
    pub(crate) fn digits(&self, entity: u64) -> Option<Digits> {
        let listed = (1..=499).contains(&entity) && self.roster[entity as usize];
        listed.then(|| {
            let mut digits = [b'0'; 4];
            write_number(&mut digits, entity + self.currency.added());
            digits
        })
    }
}

//! Whom the reading admits.

use crate::currency::Currency;
use crate::refusal::{FORMAT, NOT_ON_ROSTER, OTHER_CURRENCY};
use crate::rules::Rules;

/// The currency is judged before the roster. The entity is what the first four digits of its field spell.
#[inline(always)]
pub fn admit(rules: &Rules, entity: u64) -> Result<(), u16> {
    let number = entity.wrapping_sub(rules.currency.added());
    // Number 0 is nobody's, whatever stands for it in the roster.
    if matches!(number, 1..=499) && rules.roster[number as usize] {
        return Ok(());
    }
    Err(why_not(rules, entity))
}

#[cold]
fn why_not(rules: &Rules, entity: u64) -> u16 {
    let currency = match entity {
        1..=499 => Currency::Pesos,
        501..=999 => Currency::Dollars,
        _ => return FORMAT,
    };
    if currency == rules.currency {
        NOT_ON_ROSTER
    } else {
        OTHER_CURRENCY
    }
}

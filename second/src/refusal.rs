//! The numbers on the counter.

#[derive(Clone, Copy, Debug, PartialEq, Eq)]
pub struct Refusal {
    pub number: u16,
    pub place: usize,
}

pub const LENGTH: u16 = 201;
pub const FORMAT: u16 = 17;
pub const AMOUNT: u16 = 19;
pub const ADDITIONAL: u16 = 25;
pub const COUNTER: u16 = 27;
pub const DATE: u16 = 75;
pub const RESERVED: u16 = 77;
pub const ACCOUNT: u16 = 78;
pub const REFERENCE: u16 = 79;
pub const INFORMATION: u16 = 87;
pub const OTHER_CURRENCY: u16 = 203;
pub const NOT_ON_ROSTER: u16 = 204;
pub const BUFFER: u16 = 206;
pub const TRAY: u16 = 207;
pub const ENTITY_NUMBER: u16 = 208;
pub const IDENTIFIER: u16 = 209;
pub const NO_REASON: u16 = 214;

impl Refusal {
    /// A refusal tied to no record.
    pub fn of_no_record(number: u16) -> Self {
        Refusal { number, place: 0 }
    }
}

/// Within a record only the number is known; `read` adds the place.
pub(crate) fn require(holds: bool, number: u16) -> Result<(), u16> {
    if holds {
        Ok(())
    } else {
        Err(number)
    }
}

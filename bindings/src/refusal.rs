//! Refusals: what is wrong, by its number on the counter, and where.

use crate::calls::Spoken;
use crate::OPENING;
use std::error::Error;
use std::fmt::{self, Display, Formatter};

/// One table for the enum, its numbers and its words.
macro_rules! faults {
    ($($name:ident = $number:literal, $words:literal;)+) => {
        /// What is wrong, with its number in document 01. Shown, it says that in words.
        ///
        /// A later library may know more: a `match` has an arm for those. Where a number is unknown here, the library is not that of these
        /// bindings, and a call panics.
        #[derive(Clone, Copy, Debug, PartialEq, Eq, Hash)]
        #[non_exhaustive]
        #[repr(u16)]
        pub enum Fault {
            $(#[doc = $words] $name = $number,)+
        }

        impl Fault {
            /// Every one, in the order of document 01's table.
            pub const ALL: &'static [Fault] = &[$(Fault::$name),+];

            fn words(self) -> &'static str {
                match self {
                    $(Fault::$name => $words,)+
                }
            }
        }
    };
}

faults! {
    Length = 201, "file under 188 or over 940,000 bytes, or no multiple of 94; a company's under 250, or no multiple of 250";
    Format = 17, "character, order, fixed field, entity or control wrong";
    Amount = 19, "amount not ten digits, or zero";
    Additional = 25, "additional record missing, surplus or wrong";
    Counter = 27, "counter out of sequence";
    Date = 75, "date wrong";
    Reserved = 77, "individual record, field 4: the reserved zero";
    Account = 78, "individual record, field 5: the account";
    Reference = 79, "individual record, field 7: the reference of the debit";
    Information = 87, "individual record, field 9: the information on the transaction";
    Currency = 203, "entity of the other currency, or a company's detail not of the currency";
    Roster = 204, "entity not on the roster";
    Room = 206, "output buffer shorter than the output";
    Tray = 207, "tray, header body or LO body malformed, or motive list not 4,400 bytes";
    Entity = 208, "entity number not 1 to 499, or, in a job for one entity, not on the roster";
    Identifier = 209, "identifier already accepted from this origin";
    Reason = 214, "record asked for is not a rejection's additional record";
}

impl Fault {
    /// The number on the counter.
    pub const fn number(self) -> u64 {
        self as u64
    }
}

impl Display for Fault {
    fn fmt(&self, f: &mut Formatter<'_>) -> fmt::Result {
        f.write_str(self.words())
    }
}

impl From<Fault> for u64 {
    fn from(fault: Fault) -> u64 {
        fault.number()
    }
}

impl TryFrom<u64> for Fault {
    type Error = UnknownNumber;

    fn try_from(number: u64) -> Result<Fault, UnknownNumber> {
        let known = Fault::ALL.iter().find(|fault| fault.number() == number);
        known.copied().ok_or(UnknownNumber(number))
    }
}

/// No [`Fault`] has this number.
#[derive(Clone, Copy, Debug, PartialEq, Eq)]
pub struct UnknownNumber(pub u64);

impl Display for UnknownNumber {
    fn fmt(&self, f: &mut Formatter<'_>) -> fmt::Result {
        write!(f, "no refusal known here has number {}", self.0)
    }
}

impl Error for UnknownNumber {}

/// Where a refusal stands.
#[derive(Clone, Copy, Debug, PartialEq, Eq, Hash)]
pub enum Place {
    /// The opening itself was refused: nothing else was done, and nothing lent was written.
    Opening,
    /// At this record, from 0; at 0 too where the refusal is tied to no record.
    Record(usize),
}

/// A refusal: what is wrong, and where.
#[derive(Clone, Copy, Debug, PartialEq, Eq, Hash)]
pub struct Refusal {
    pub fault: Fault,
    pub place: Place,
}

impl Refusal {
    /// The number on the counter.
    pub const fn number(&self) -> u64 {
        self.fault.number()
    }
}

impl Display for Refusal {
    fn fmt(&self, f: &mut Formatter<'_>) -> fmt::Result {
        let (number, fault) = (self.number(), self.fault);
        match self.place {
            Place::Opening => write!(f, "opening refused {number}: {fault}"),
            Place::Record(record) => write!(f, "refused {number} at {record}: {fault}"),
        }
    }
}

impl Error for Refusal {}

impl Spoken {
    /// Acceptance or the refusal.
    pub(crate) fn answer(self) -> Result<(), Refusal> {
        self.counted().map(|_| ())
    }

    /// Records read or bytes written or shown, or the refusal.
    ///
    /// # Panics
    /// Where no fault has the number: no answer of such a library can be relied on.
    pub(crate) fn counted(self) -> Result<usize, Refusal> {
        if self.number == 0 {
            return Ok(self.place as usize);
        }
        let fault = Fault::try_from(self.number);
        Err(Refusal {
            fault: fault
                .unwrap_or_else(|unknown| panic!("a library of another version: {unknown}")),
            place: match self.place {
                OPENING => Place::Opening,
                place => Place::Record(place as usize),
            },
        })
    }
}

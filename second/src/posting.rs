//! Who pays whom: what the individual records of an accepted file post.

use crate::fields::{entity, field, number};
use crate::headers::sender;
use crate::individual::Code;
use crate::reading::RECORD;

/// One individual record, as far as it moves positions.
#[derive(Clone, Copy, Debug, PartialEq, Eq)]
pub struct Posting {
    pub code: Code,
    /// The entity of the batch header, which need not be the file's origin.
    pub sender: usize,
    pub destination: usize,
    /// In cents.
    pub amount: i64,
}

impl Posting {
    /// By how much the sender's position rises; the destination's falls by as much.
    pub fn to_sender(&self) -> i64 {
        match self.code {
            // A rejection returns a debit, and yet it is its sender that collects.
            Code::Order | Code::Rejection => self.amount,
            Code::Reversal | Code::ReversalRejection => -self.amount,
        }
    }
}

/// The postings of a file that the reading has accepted, in order.
pub fn postings(file: &[u8]) -> Vec<Posting> {
    let mut found = Vec::new();
    let mut batch_header: &[u8] = &[];
    for record in file.chunks_exact(RECORD) {
        match record[0] {
            b'5' => batch_header = record,
            b'6' => found.extend(posting(batch_header, record)),
            _ => {}
        }
    }
    found
}

/// Nothing only where the reading would have refused.
fn posting(batch_header: &[u8], individual: &[u8]) -> Option<Posting> {
    Some(Posting {
        code: Code::of(individual)?,
        sender: entity(sender(batch_header))?.number,
        destination: entity(field(individual, 4, 11))?.number,
        amount: number(field(individual, 30, 39))? as i64,
    })
}

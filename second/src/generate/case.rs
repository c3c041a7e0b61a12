//! A file for the reading, with the answer that was meant.

use super::draft::Draft;
use crate::{Refusal, Rules};

/// The answer that was meant, where it is known.
pub type Answer = Option<Result<usize, Refusal>>;

pub fn refused(number: u16, place: usize) -> Answer {
    Some(Err(Refusal { number, place }))
}

/// The reading's answer to a draft that is good.
pub fn accepted(draft: &Draft) -> Answer {
    Some(Ok(draft.records.len()))
}

pub struct Case {
    pub family: &'static str,
    pub rules: Rules,
    pub file: Vec<u8>,
    pub expected: Answer,
}

impl Case {
    pub fn of(family: &'static str, draft: &Draft, expected: Answer) -> Self {
        Case::with(family, draft.rules.clone(), draft.bytes(), expected)
    }

    pub fn good(family: &'static str, draft: &Draft) -> Self {
        Case::of(family, draft, accepted(draft))
    }

    pub fn with(family: &'static str, rules: Rules, file: Vec<u8>, expected: Answer) -> Self {
        Case {
            family,
            rules,
            file,
            expected,
        }
    }
}

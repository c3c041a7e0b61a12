//! Receivings: a session, a desk, and what it was handed.

use super::asked::{no_entity, on_roster};
use super::case::Answer;
use super::opening::{some_opening, Opened};
use super::parcel::{any_parcel, large_parcel, Parcel, FAMILIES, LARGE};
use super::random::{Random, RECEIVED};
use crate::day::Opening;
use crate::{receive, Refusal, Rules};

/// One receiving, with the answer that was meant where it is known.
pub struct ReceiveCase {
    pub family: &'static str,
    pub opening: Opening,
    /// What the session goes by, also after a refused opening.
    pub rules: Rules,
    /// The desk that the file is for; often the one that receives it.
    pub made_for: usize,
    pub entity: u64,
    pub file: Vec<u8>,
    pub meant: Answer,
}

/// The large extracts come first; after them each twenty-four cases hold all families.
pub fn generate_received(seed: u64, number: u64) -> ReceiveCase {
    let mut random = Random::new(seed, RECEIVED + number);
    let large = number < LARGE;
    let parcel = if large {
        large_parcel(&mut random, number)
    } else {
        any_parcel(&mut random, seed, number % FAMILIES)
    };
    let opened = some_opening(&mut random, &parcel.case.rules, !large);
    let entity = match large {
        true => parcel.entity as u64,
        false => any_desk(&mut random, &parcel, &opened.rules),
    };
    ReceiveCase::of(parcel, opened, entity)
}

/// The right one for the most part; then others, on the roster and not, and numbers of nobody.
pub fn any_desk(random: &mut Random, parcel: &Parcel, rules: &Rules) -> u64 {
    let own = parcel.entity as u64;
    match random.below(24) {
        0 | 1 => on_roster(random, rules, true),
        2 => on_roster(random, rules, false),
        3 => no_entity(random, own),
        4 => *random.pick(&[1, 499, 499]),
        _ => own,
    }
}

impl ReceiveCase {
    fn of(parcel: Parcel, opened: Opened, entity: u64) -> Self {
        let meant = parcel.answer_to(&opened.rules, entity);
        ReceiveCase {
            family: parcel.case.family,
            opening: opened.opening,
            rules: opened.rules,
            made_for: parcel.entity,
            entity,
            file: parcel.case.file,
            meant,
        }
    }

    /// The second program's answer.
    pub fn run(&self) -> Result<usize, Refusal> {
        let (_, session) = self.opening.open();
        receive(session.rules(), self.entity, &self.file)
    }

    /// What must hold of an answer, whichever program has given it.
    pub fn check(&self, answer: Result<usize, Refusal>) -> Result<(), String> {
        match self.meant {
            Some(meant) if meant != answer => Err(format!("{meant:?} was meant")),
            _ => Ok(()),
        }
    }
}

//! Reasons of rejections: the additional record's own text, or the line for its R number in a lent list of motives.

use crate::fields::{all_blank, field, number};
use crate::reading::RECORD;
use crate::receiving::receive;
use crate::refusal::{ENTITY_NUMBER, NO_REASON, TRAY};
use crate::{Refusal, Rules};

/// Bytes of a reason, and so of a line of the list.
pub const REASON: usize = 44;
/// Lines of the list, from R00 to R99.
const LINES: usize = 100;
/// Bytes of the list; what they hold is not judged.
pub const MOTIVES: usize = LINES * REASON;

/// Which of the two that were lent.
#[derive(Clone, Copy, Debug, PartialEq, Eq)]
pub enum Source {
    File,
    Motives,
}

/// Where a reason stands: in which of the two, and at which byte of it.
#[derive(Clone, Copy, Debug, PartialEq, Eq)]
pub struct Standing {
    pub source: Source,
    pub at: usize,
}

impl Standing {
    /// The reason itself, where it stands; nothing where so many bytes do not.
    pub fn text<'a>(self, file: &'a [u8], motives: &'a [u8]) -> Option<&'a [u8]> {
        let lent = match self.source {
            Source::File => file,
            Source::Motives => motives,
        };
        lent.get(self.at..)?.get(..REASON)
    }
}

/// A reason as both programs are asked for it: where it stands, and a copy of its bytes.
pub type Shown = Result<(Standing, Vec<u8>), Refusal>;

/// For each record of a file where its reason stands, if it has one.
pub type Reasons = Result<Vec<Option<Standing>>, Refusal>;

/// The reason for the rejection whose additional record this is, as a part of what was lent.
pub fn show<'a>(
    rules: &Rules,
    entity: u64,
    file: &'a [u8],
    motives: &'a [u8],
    record: u64,
) -> Result<(Standing, &'a [u8]), Refusal> {
    receive_with(rules, entity, file, motives)?;
    let standing = usize::try_from(record)
        .ok()
        .and_then(|place| standings(file).nth(place).flatten());
    let shown = standing.and_then(|standing| Some((standing, standing.text(file, motives)?)));
    shown.ok_or(Refusal::of_no_record(NO_REASON))
}

/// All reasons of a file at once.
pub fn reasons(rules: &Rules, entity: u64, file: &[u8], motives: &[u8]) -> Reasons {
    receive_with(rules, entity, file, motives)?;
    Ok(standings(file).collect())
}

/// 208 comes before the list's length, and that before the reading.
fn receive_with(rules: &Rules, entity: u64, file: &[u8], motives: &[u8]) -> Result<usize, Refusal> {
    if rules.digits(entity).is_none() {
        return Err(Refusal::of_no_record(ENTITY_NUMBER));
    }
    if motives.len() != MOTIVES {
        return Err(Refusal::of_no_record(TRAY));
    }
    receive(rules, entity, file)
}

/// Of a file that was received, in the order of its records.
fn standings(file: &[u8]) -> impl Iterator<Item = Option<Standing>> + '_ {
    let records = file.chunks_exact(RECORD).enumerate();
    records.map(|(place, record)| standing(place, record))
}

/// Only a rejection's additional has 99: the reading saw to that.
fn standing(place: usize, record: &[u8]) -> Option<Standing> {
    if !record.starts_with(b"799") {
        return None;
    }
    if !all_blank(field(record, 36, 79)) {
        return Some(Standing {
            source: Source::File,
            at: place * RECORD + 35,
        });
    }
    let motive = number(field(record, 5, 6))? as usize;
    Some(Standing {
        source: Source::Motives,
        at: motive * REASON,
    })
}

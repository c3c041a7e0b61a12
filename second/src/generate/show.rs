//! Reasons to be shown: a session, a desk, what it was handed, a list of motives, and the record asked for.

use super::case::{refused, Answer};
use super::handed::{any_handed, handed_with_reasons};
use super::meant::records_of;
use super::opening::some_opening;
use super::parcel::{any_parcel, good, large_parcel, Parcel, FAMILIES};
use super::random::{Random, SHOWN};
use super::receive::any_desk;
use super::room::filled;
use crate::day::Opening;
use crate::reading::RECORD;
use crate::reasons::{Reasons, Shown};
use crate::{reasons, show, Refusal, Rules, Source, Standing};

/// One reason asked for.
pub struct ShowCase {
    pub family: &'static str,
    pub opening: Opening,
    /// What the session goes by, also after a refused opening.
    pub rules: Rules,
    pub entity: u64,
    pub file: Vec<u8>,
    pub motives: Vec<u8>,
    pub record: u64,
    /// The answer before any record is looked for, where it is known: 208, 207, then the reading's.
    reading: Answer,
}

/// Bytes of a list.
const LIST: usize = 4_400;

/// How many of the large extracts have reasons asked for; they come first.
const LARGE: u64 = 6;

pub fn generate_shown(seed: u64, number: u64) -> ShowCase {
    let mut random = Random::new(seed, SHOWN + number);
    let large = number < LARGE;
    let parcel = if large {
        large_parcel(&mut random, number)
    } else {
        source(&mut random, seed, number)
    };
    let opened = some_opening(&mut random, &parcel.case.rules, !large);
    let entity = match large || random.once_in(2) {
        true => parcel.entity as u64,
        false => any_desk(&mut random, &parcel, &opened.rules),
    };
    let motives = any_list(&mut random, large);
    let reading = match parcel.answer_to(&opened.rules, entity) {
        Some(Err(Refusal { number: 208, .. })) => refused(208, 0),
        _ if motives.len() != LIST => refused(207, 0),
        answer => answer,
    };
    let file = parcel.case.file;
    let record = match large {
        true => last_reason(&file),
        false => any_record(&mut random, &file),
    };
    ShowCase {
        family: parcel.case.family,
        opening: opened.opening,
        rules: opened.rules,
        entity,
        file,
        motives,
        record,
        reading,
    }
}

/// Extracts with rejections for the most part; then everything that is received.
fn source(random: &mut Random, seed: u64, number: u64) -> Parcel {
    match number % 24 {
        0..=14 => good("rejections", handed_with_reasons(random)),
        15 | 16 => good("extract", any_handed(random)),
        _ => {
            let family = random.below(FAMILIES as usize) as u64;
            any_parcel(random, seed, family)
        }
    }
}

/// Any bytes, or blanks; now and then of another length.
fn any_list(random: &mut Random, sure: bool) -> Vec<u8> {
    let any = random.below(10_000);
    let others = [
        0, 1, 43, 44, 4_356, 4_399, 4_399, 4_401, 4_401, 4_444, 4_444, 4_500, 8_800, any,
    ];
    let length = if !sure && random.once_in(8) {
        *random.pick(&others)
    } else {
        LIST
    };
    if random.once_in(8) {
        return vec![b' '; length];
    }
    filled(random, length)
}

/// As far back as a large extract has one.
fn last_reason(file: &[u8]) -> u64 {
    places_of(file, b"799").last().copied().unwrap_or(0)
}

/// A rejection's additional for the most part; then every kind, places behind the file, and numbers that look like one's when cut.
fn any_record(random: &mut Random, file: &[u8]) -> u64 {
    let last = (file.len() / RECORD) as u64;
    let any = random.below(last as usize + 2) as u64;
    let motive = any_place_of(random, file, b"799").unwrap_or(any);
    let concept = any_place_of(random, file, b"705").unwrap_or(any);
    let far = [last + 1, last * 94, 10_000, u64::MAX, u64::MAX, !motive];
    match random.below(16) {
        0..=8 => motive,
        9 => concept,
        10 | 11 => any,
        12 => *random.pick(&[motive.saturating_sub(1), motive + 1]),
        13 => last,
        14 => *random.pick(&far),
        _ => motive + *random.pick(&[1 << 16, 1 << 32, 1 << 63]),
    }
}

/// The places of all records that begin so.
fn places_of(file: &[u8], begin: &[u8]) -> Vec<u64> {
    let records = file.chunks_exact(RECORD).zip(0..);
    let begun = records.filter(|(record, _)| record.starts_with(begin));
    begun.map(|(_, place)| place).collect()
}

fn any_place_of(random: &mut Random, file: &[u8], begin: &[u8]) -> Option<u64> {
    let places = places_of(file, begin);
    (!places.is_empty()).then(|| *random.pick(&places))
}

/// Where the reasons of a file stand that was received, told from its bytes.
fn standings_of(file: &[u8]) -> Vec<Option<Standing>> {
    let in_file = |place: usize| Standing {
        source: Source::File,
        at: RECORD * place + 35,
    };
    let in_list = |tens: u8, ones: u8| Standing {
        source: Source::Motives,
        at: 440 * usize::from(tens - b'0') + 44 * usize::from(ones - b'0'),
    };
    let records = records_of(file).into_iter().enumerate();
    records
        .map(|(place, record)| match record {
            [b'7', b'9', b'9', b'R', tens, ones, ..] => Some(match record[35..79] == [b' '; 44] {
                true => in_list(tens, ones),
                false => in_file(place),
            }),
            _ => None,
        })
        .collect()
}

impl ShowCase {
    /// The second program's answer.
    pub fn run(&self) -> Shown {
        let (_, session) = self.opening.open();
        let (file, motives) = (&self.file, &self.motives);
        let shown = show(session.rules(), self.entity, file, motives, self.record);
        shown.map(|(standing, text)| (standing, text.to_vec()))
    }

    /// The second program's answer for the whole file.
    pub fn run_all(&self) -> Reasons {
        let (_, session) = self.opening.open();
        reasons(session.rules(), self.entity, &self.file, &self.motives)
    }

    /// What must hold of both answers, whichever program has given them.
    pub fn check(&self, shown: &Shown, all: &Reasons) -> Result<(), String> {
        let answer = all.as_ref().map(Vec::len).map_err(|refusal| *refusal);
        if self.reading.is_some_and(|reading| reading != answer) {
            return Err(format!("{:?} was meant before any reason", self.reading));
        }
        let is_other = |standings: &Vec<_>| *standings != standings_of(&self.file);
        if all.as_ref().is_ok_and(is_other) {
            return Err("not the reasons that were meant".into());
        }
        let meant = self.one_of(all);
        let same = *shown == meant;
        same.then_some(()).ok_or(format!("{meant:?} was meant"))
    }

    /// The one asked for, out of all reasons.
    fn one_of(&self, all: &Reasons) -> Shown {
        let standings = all.as_ref().map_err(|refusal| *refusal)?;
        let place = usize::try_from(self.record).ok();
        let standing = place.and_then(|place| *standings.get(place)?);
        let none = Refusal {
            number: 214,
            place: 0,
        };
        let standing = standing.ok_or(none)?;
        Ok((standing, self.bytes_of(standing)))
    }

    fn bytes_of(&self, standing: Standing) -> Vec<u8> {
        let lent = match standing.source {
            Source::File => &self.file,
            Source::Motives => &self.motives,
        };
        lent[standing.at..standing.at + 44].to_vec()
    }
}

//! Both programs on reasons: the one asked for, and all of the file at once.

use super::counters::Refused;
use super::job::{Job, Seen};
use super::readings::is_named;
use super::received::was_opened;
use super::showing::show_and_keep;
use second::generate::show::{generate_shown, ShowCase};
use second::proved::{self, Told};
use second::reasons::Shown;
use second::{receive, Refusal, Source};

impl Job for ShowCase {
    type Answer = Shown;
    const JOB: &'static str = "shown";
    const CASE: &'static str = "shown";
    const GENERATE: fn(u64, u64) -> Self = generate_shown;

    fn by_second(&self) -> Shown {
        match proved::not_opened(&self.opening) {
            Some(refusal) => Err(refusal),
            None => self.run(),
        }
    }

    fn by_proved(&self) -> Result<Shown, String> {
        let (file, motives) = (&self.file, &self.motives);
        proved::shown(&self.opening, self.entity, file, motives, self.record)
    }

    fn check(&self, number: u64, shown: &Shown) -> Result<(), String> {
        same_reasons(self, number)?;
        if !was_opened(shown) {
            // What the second program does in the session of nobody is still what was meant.
            return ShowCase::check(self, &self.run(), &self.run_all());
        }
        ShowCase::check(self, shown, &self.run_all())
    }

    fn shows(seen: &Seen<Self>, name: &str) -> u64 {
        let named = name == Self::JOB || name == seen.case.family;
        u64::from(named || is_named(seen.answer.as_ref().map_err(|refusal| *refusal), name))
    }

    fn show(&self, ours: &Shown, theirs: &Result<Shown, String>, name: &str) {
        println!("{}, {:?}", self.family, self.opening);
        println!("record {} shown to {}", self.record, self.entity);
        println!("second: {ours:?}");
        println!("proved: {theirs:?}");
        show_and_keep(&self.file, 94, name);
        show_and_keep(&self.motives, 44, &format!("{name}-motives"));
    }
}

/// Numbers lent for the reasons of all records: room for each, for more, for one too few, for some, for none.
fn room(records: usize, number: u64) -> usize {
    // Each room comes to each family, of which there are twenty-four.
    match number / 24 % 6 {
        0 => 2 * records + 5,
        1 => (2 * records).saturating_sub(1),
        2 => records,
        3 => records % 3,
        _ => 2 * records,
    }
}

/// All reasons of the file, in all numbers that were lent.
fn same_reasons(case: &ShowCase, number: u64) -> Result<(), String> {
    let records = case.file.len() / 94;
    // No source, and no byte of any file.
    let before: Vec<u64> = (0..room(records, number) as u64)
        .map(|index| !index)
        .collect();
    let ours = told(case, &before);
    let (file, motives) = (&case.file, &case.motives);
    let theirs = proved::reasons(&case.opening, case.entity, file, motives, &before)?;
    if ours == theirs {
        return Ok(());
    }
    Err(format!("reasons: second {ours:?}, proved {theirs:?}"))
}

/// What the second program's reasons would leave of these numbers.
fn told(case: &ShowCase, before: &[u64]) -> Told {
    let mut texts = before.to_vec();
    let all = match proved::not_opened(&case.opening) {
        Some(refusal) => Err(refusal),
        None => case.run_all(),
    };
    for (place, reason) in texts.chunks_exact_mut(2).zip(all.iter().flatten()) {
        place.copy_from_slice(&proved::in_numbers(*reason));
    }
    let answer = all.map(|reasons| reasons.len());
    Told { answer, texts }
}

impl Seen<ShowCase> {
    pub fn refused(&self, number: u16) -> bool {
        let refusal = self.answer.as_ref().err();
        was_opened(&self.answer) && refusal.is_some_and(|refusal| refusal.number == number)
    }

    /// Which of the two that were lent it stands in.
    pub fn stands_in(&self, source: Source) -> bool {
        let shown = self.answer.as_ref();
        shown.is_ok_and(|(standing, _)| standing.source == source)
    }

    /// Whether the file is refused for the counter of another batch.
    pub fn repeats(&self) -> bool {
        let refusal = self.answer.as_ref().err();
        let refusal = refusal.filter(|_| self.refused(27));
        let refused = refusal.and_then(|refusal| Refused::at(&self.case.file, refusal.place));
        refused.is_some_and(|refused| refused.repeats())
    }

    pub fn records(&self) -> u64 {
        self.case.file.len() as u64 / 94
    }

    fn record_at(&self, place: u64) -> &[u8] {
        let place = usize::try_from(place).unwrap_or(usize::MAX);
        self.case.file.chunks_exact(94).nth(place).unwrap_or(&[])
    }

    /// The record asked for; nothing behind the file.
    pub fn record(&self) -> &[u8] {
        self.record_at(self.case.record)
    }

    /// The one before it: that of an additional is the rejection itself.
    pub fn before(&self) -> &[u8] {
        match self.case.record {
            0 => &[],
            place => self.record_at(place - 1),
        }
    }

    /// The record of a reason that was shown.
    fn shown_record(&self) -> Option<&[u8]> {
        self.answer.is_ok().then(|| self.record())
    }

    /// The only position of the text that is not blank.
    pub fn only_character(&self) -> Option<usize> {
        let text = &self.shown_record()?[35..79];
        let mut filled = (36..).zip(text).filter(|&(_, &byte)| byte != b' ');
        let (position, _) = filled.next()?;
        filled.next().is_none().then_some(position)
    }

    /// The R number of a reason that stands in the list.
    pub fn line(&self) -> Option<usize> {
        let (standing, _) = self.answer.as_ref().ok()?;
        (standing.source == Source::Motives).then_some(standing.at / 44)
    }

    /// Whether the reading, or 208, would refuse whatever the list is.
    pub fn is_refused_anyway(&self) -> bool {
        self.received().is_err()
    }

    fn received(&self) -> Result<usize, Refusal> {
        receive(&self.case.rules, self.case.entity, &self.case.file)
    }

    /// Whether what was asked for is a rejection's additional, in a file good or not.
    pub fn is_motive(&self) -> bool {
        self.record().starts_with(b"799")
    }

    /// Records whose reasons were compared, all at once.
    pub fn compared(&self) -> u64 {
        let good = was_opened(&self.answer) && self.case.motives.len() == 4_400;
        self.received().map_or(0, |records| records as u64) * u64::from(good)
    }

    /// Those of them that have one.
    pub fn reasons(&self) -> u64 {
        let records = self.case.file.chunks_exact(94);
        let motives = records.filter(|record| record.starts_with(b"799"));
        motives.count() as u64 * u64::from(self.compared() > 0)
    }
}

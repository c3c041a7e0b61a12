//! Both programs on generated days: opening, every answer, every cell, the listing.

use super::counters::{fall, Refused};
use super::job::{Job, Seen};
use super::showing::{both_texts, show_and_keep};
use second::day::{Day, Outcome};
use second::generate::day::{generate_day, DayCase, Presented};
use second::individual::Code;
use second::posting::{postings, Posting};
use second::{proved, Currency, Refusal};
use std::collections::{BTreeMap, BTreeSet};
use std::fmt::Debug;

/// One day in so many is also left after each of its files.
const LEFT_EARLY: u64 = 4;

impl Job for DayCase {
    type Answer = Outcome;
    const JOB: &'static str = "days and their listings";
    const CASE: &'static str = "day";
    const GENERATE: fn(u64, u64) -> Self = generate_day;

    fn by_second(&self) -> Outcome {
        ours(&self.day)
    }

    fn by_proved(&self) -> Result<Outcome, String> {
        Ok(proved::day(&self.day))
    }

    fn check(&self, number: u64, _: &Outcome) -> Result<(), String> {
        same_listing(&self.day)?;
        if number.is_multiple_of(LEFT_EARLY) {
            same_on_the_way(&self.day)?;
        }
        Ok(())
    }

    fn shows(seen: &Seen<DayCase>, name: &str) -> u64 {
        let number = number_in(name);
        match name.split(' ').next() {
            Some("openings") => u64::from(number_of(&seen.answer.opening) == number),
            Some("files") => seen.answered(number),
            _ => u64::from(name == "days"),
        }
    }

    fn show(&self, ours: &Outcome, theirs: &Result<Outcome, String>, name: &str) {
        println!("{}, {:?}", self.family, self.day.opening);
        println!("opening meant {:?}", self.opening);
        if let Ok(theirs) = theirs {
            println!("{}", differences(ours, theirs));
        }
        for (index, file) in self.day.files().enumerate() {
            let Presented { kind, meant } = &self.presented[index];
            let answer = ours.answers.get(index);
            println!("file {index} ({kind}), second {answer:?}, meant {meant:?}");
            show_and_keep(file, 94, &format!("{name}-{index}"));
        }
    }
}

/// Where the opening is refused, that is all.
fn ours(day: &Day) -> Outcome {
    match proved::not_opened(&day.opening) {
        Some(refusal) => proved::day_not_opened(refusal),
        None => day.run(),
    }
}

fn differences(ours: &Outcome, theirs: &Outcome) -> String {
    let openings = different("opening", &[ours.opening], &[theirs.opening]);
    let answers = different("file", &ours.answers, &theirs.answers);
    openings + &answers + &different("cell", &ours.cells, &theirs.cells)
}

fn different<T: Debug + PartialEq>(name: &str, ours: &[T], theirs: &[T]) -> String {
    let pairs = ours.iter().zip(theirs).enumerate();
    let pairs = pairs.filter(|(_, (second, proved))| second != proved);
    let lines = pairs.map(|(index, (second, proved))| {
        format!("{name} {index}: second {second:?}, proved {proved:?}\n")
    });
    lines.collect()
}

/// What is printed of the session at the end of the day, however many files it has seen.
fn same_listing(day: &Day) -> Result<(), String> {
    let theirs = proved::day_listing(day);
    let ours = match proved::not_opened(&day.opening) {
        Some(refusal) => Err(refusal),
        None => Ok(day.listing()),
    };
    if theirs.as_ref() == Ok(&ours) {
        return Ok(());
    }
    let text = |said: Result<_, Refusal>| said.unwrap_or_else(|no| format!("{no:?}").into_bytes());
    let texts = both_texts(&text(ours), &theirs.map(text));
    let files = day.ends().len();
    Err(format!("the listing after {files} files\n{texts}"))
}

/// The cells and the listing after each file, not only after the last.
fn same_on_the_way(day: &Day) -> Result<(), String> {
    for files in 0..day.ends().len() {
        let day = day.until(files);
        let (ours, theirs) = (ours(&day), proved::day(&day));
        if ours != theirs {
            let differences = differences(&ours, &theirs);
            return Err(format!("after {files} files\n{differences}"));
        }
        same_listing(&day)?;
    }
    Ok(())
}

/// 0 for acceptance.
fn number_of(answer: &Result<(), Refusal>) -> u16 {
    answer.err().map_or(0, |refusal| refusal.number)
}

/// The number with which a name of the table ends, 0 for one without.
fn number_in(name: &str) -> u16 {
    let last = name.rsplit(' ').next();
    last.and_then(|word| word.parse().ok()).unwrap_or(0)
}

impl Seen<DayCase> {
    pub fn entities(&self) -> &[u64] {
        &self.case.day.opening.entities
    }

    pub fn lists_twice(&self) -> bool {
        let different: BTreeSet<&u64> = self.entities().iter().collect();
        different.len() < self.entities().len()
    }

    fn answers(&self) -> impl Iterator<Item = (&[u8], u16)> {
        let answers = self.answer.answers.iter().map(number_of);
        self.case.day.files().zip(answers)
    }

    /// Files that got this answer.
    fn answered(&self, number: u16) -> u64 {
        self.answers().filter(|&(_, said)| said == number).count() as u64
    }

    fn accepted(&self) -> impl Iterator<Item = &[u8]> {
        let accepted = self.answers().filter(|&(_, number)| number == 0);
        accepted.map(|(file, _)| file)
    }

    pub fn accepted_in(&self, currency: Currency) -> u64 {
        if self.case.day.opening.currency == currency {
            self.answered(0)
        } else {
            0
        }
    }

    /// Files accepted though their counters fall.
    pub fn accepted_falling(&self) -> u64 {
        self.accepted().filter(|file| fall(file)).count() as u64
    }

    /// Files refused for the counter of another batch.
    pub fn refused_for_repeats(&self) -> u64 {
        let answers = self.answer.answers.iter();
        let answered = self.case.day.files().zip(answers);
        let repeats = answered.filter(|(file, answer)| {
            let refusal = answer.err().filter(|refusal| refusal.number == 27);
            let refused = refusal.and_then(|refusal| Refused::at(file, refusal.place));
            refused.is_some_and(|refused| refused.repeats())
        });
        repeats.count() as u64
    }

    /// Files accepted after one with their key was refused by the reading.
    pub fn repaired(&self) -> u64 {
        let (mut refused, mut repaired) = (BTreeSet::new(), 0);
        for (file, number) in self.answers() {
            let key = (file.get(14..18), file.get(33));
            match number {
                0 => repaired += u64::from(refused.contains(&key)),
                209 => {}
                _ => {
                    refused.insert(key);
                }
            }
        }
        repaired
    }

    pub fn origins_of_36(&self) -> u64 {
        let mut used = BTreeMap::<&[u8], u64>::new();
        for file in self.accepted() {
            *used.entry(&file[14..18]).or_default() += 1;
        }
        used.values().filter(|&&count| count == 36).count() as u64
    }

    /// Batches that somebody else than the file's origin sends.
    pub fn for_others(&self) -> u64 {
        let of_file = |file: &[u8]| {
            let batches = file.chunks(94).filter(|record| record[0] == b'5');
            batches
                .filter(|batch| batch[79..83] != file[14..18])
                .count() as u64
        };
        self.accepted().map(of_file).sum()
    }

    fn posted(&self, test: impl Fn(&Posting) -> bool) -> u64 {
        let posted = self.accepted().flat_map(postings);
        posted.filter(test).count() as u64
    }

    pub fn posted_of(&self, code: Code) -> u64 {
        self.posted(|posting| posting.code == code)
    }

    pub fn sent_to_oneself(&self) -> u64 {
        self.posted(|posting| posting.sender == posting.destination)
    }

    pub fn negative(&self) -> u64 {
        let cells = self.answer.cells.iter();
        cells.filter(|cell| cell.position < 0).count() as u64
    }
}

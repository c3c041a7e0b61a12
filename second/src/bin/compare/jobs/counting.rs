//! What the cases of a run have reached, held against the rows of the table.

use super::job::{Job, Seen};
use std::collections::BTreeSet;

/// What is seen of a case, and of a record of it.
type Of<J, T> = fn(&Seen<J>) -> T;
type OfRecord = fn(&[u8]) -> bool;
/// What must be reached, how often at the least, and how that is seen.
type Row<T> = (&'static str, u64, T);

/// Rows of the table, by the way in which they are counted.
pub enum Rows<J: Job> {
    /// The job knows these names.
    Named(&'static [(&'static str, u64)]),
    /// The same, for one name that at least one case in so many must show.
    OneIn(&'static str, u64),
    /// Those cases of some sort for which this holds too.
    Cases(Of<J, bool>, &'static [Row<Of<J, bool>>]),
    /// Those of some records of a case for which this holds.
    Records(fn(&Seen<J>) -> Vec<&[u8]>, &'static [Row<OfRecord>]),
    /// As many as each case has.
    Sums(&'static [Row<Of<J, u64>>]),
    /// Values of cases, each of them once.
    Different(&'static [Row<Of<J, Option<usize>>>]),
    /// The largest value of all cases, which is only said.
    Largest(&'static str, Of<J, u64>),
}

/// One row, and how often it was reached.
struct Count<J: Job> {
    name: &'static str,
    least: u64,
    count: u64,
    more: More<J>,
}

/// By how much a case raises a count.
type More<J> = Box<dyn FnMut(&Seen<J>) -> u64>;

pub struct Tally<J: Job> {
    counts: Vec<Count<J>>,
}

impl<J: Job> Tally<J> {
    pub fn new(table: &[Rows<J>], cases: u64) -> Self {
        let counts = table.iter().flat_map(|rows| rows.counts(cases)).collect();
        Tally { counts }
    }

    pub fn add(&mut self, seen: &Seen<J>) {
        for count in &mut self.counts {
            count.count += (count.more)(seen);
        }
    }

    /// Shows all counts; whether each was reached often enough.
    pub fn enough(&self) -> bool {
        for row in &self.counts {
            println!("{}: {}", row.name, row.count);
            if row.count < row.least {
                println!("FAILED: {} is less than {}", row.name, row.least);
            }
        }
        self.counts.iter().all(|row| row.count >= row.least)
    }
}

impl<J: Job> Rows<J> {
    fn counts(&self, cases: u64) -> Vec<Count<J>> {
        match *self {
            Rows::Named(rows) => {
                let rows = rows.iter().copied();
                let named = |(name, least)| count(name, least, move |seen| J::shows(seen, name));
                rows.map(named).collect()
            }
            Rows::OneIn(name, times) => {
                vec![count(name, cases / times, move |seen| J::shows(seen, name))]
            }
            Rows::Cases(sort, rows) => all(rows, |test| {
                Box::new(move |seen| u64::from(sort(seen) && test(seen)))
            }),
            Rows::Records(records, rows) => all(rows, |test| {
                Box::new(move |seen| {
                    let found = records(seen).into_iter().filter(|record| test(record));
                    found.count() as u64
                })
            }),
            Rows::Sums(rows) => all(rows, |sum| Box::new(sum)),
            Rows::Different(rows) => all(rows, |value| {
                let mut known = BTreeSet::new();
                let mut is_new = move |value| known.insert(value);
                Box::new(move |seen| u64::from(value(seen).is_some_and(&mut is_new)))
            }),
            Rows::Largest(name, value) => {
                let mut largest = 0;
                vec![count(name, 0, move |seen| {
                    let more = value(seen).saturating_sub(largest);
                    largest += more;
                    more
                })]
            }
        }
    }
}

fn all<T: Copy, J: Job>(rows: &[Row<T>], more: impl Fn(T) -> More<J>) -> Vec<Count<J>> {
    let rows = rows.iter().copied();
    rows.map(|(name, least, test)| count(name, least, more(test)))
        .collect()
}

fn count<J: Job>(
    name: &'static str,
    least: u64,
    more: impl FnMut(&Seen<J>) -> u64 + 'static,
) -> Count<J> {
    Count {
        name,
        least,
        count: 0,
        more: Box::new(more),
    }
}

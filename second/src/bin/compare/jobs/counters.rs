//! Positions 88-94 of the individual records of a file, for what a run must reach of them.

use second::fields::number;
use second::generate::numbering::HIGHEST;
use std::collections::BTreeSet;
use std::ops::Range;

const COUNTER: Range<usize> = 87..94;
const SENDER: Range<usize> = 79..87;

/// Counters are far apart when any two differ by this much.
const FAR: u64 = 1_000;

/// Fewer show nothing.
const SEVERAL: usize = 4;

/// One individual record.
#[derive(Clone, Copy)]
struct Individual<'f> {
    place: usize,
    /// How many batches begin before it.
    batch: usize,
    record: &'f [u8],
}

impl Individual<'_> {
    fn counter(&self) -> u64 {
        number(&self.record[COUNTER]).unwrap_or(0)
    }
}

fn individuals(file: &[u8]) -> Vec<Individual<'_>> {
    let mut batch = 0;
    let mut found = Vec::new();
    for (place, record) in file.chunks_exact(94).enumerate() {
        match record[0] {
            b'5' => batch += 1,
            b'6' => found.push(Individual {
                place,
                batch,
                record,
            }),
            _ => {}
        }
    }
    found
}

/// Whether one counter is below an earlier one.
pub fn fall(file: &[u8]) -> bool {
    let counters: Vec<u64> = individuals(file).iter().map(Individual::counter).collect();
    !counters.is_sorted()
}

/// Whether there are several batches, and counters that do not ascend through all of them.
pub fn fall_or_repeat(file: &[u8]) -> bool {
    let individuals = individuals(file);
    let several = individuals.last().is_some_and(|last| last.batch > 1);
    several && !individuals.is_sorted_by(|one, next| one.counter() < next.counter())
}

/// Whether counters fall, and no two of several lie near each other.
pub fn fall_far_apart(file: &[u8]) -> bool {
    let individuals = individuals(file);
    let counters: BTreeSet<u64> = individuals.iter().map(Individual::counter).collect();
    let counters: Vec<u64> = counters.into_iter().collect();
    let far = counters.windows(2).all(|pair| pair[0] + FAR <= pair[1]);
    far && counters.len() >= SEVERAL && fall(file)
}

/// Whether a batch ends with the highest number there is and the next begins with 1.
pub fn begin_again(file: &[u8]) -> bool {
    let individuals = individuals(file);
    let mut pairs = individuals.windows(2);
    pairs.any(|pair| pair[0].counter() == HIGHEST && pair[1].counter() == 1)
}

/// An individual record that is refused by 27, and those before it.
pub struct Refused<'f> {
    earlier: Vec<Individual<'f>>,
    refused: Individual<'f>,
    is_last: bool,
}

impl<'f> Refused<'f> {
    pub fn at(file: &'f [u8], place: usize) -> Option<Self> {
        let mut earlier = individuals(file);
        let index = earlier.iter().position(|found| found.place == place)?;
        let is_last = index + 1 == earlier.len();
        let refused = earlier[index];
        earlier.truncate(index);
        Some(Refused {
            earlier,
            refused,
            is_last,
        })
    }

    /// The one before in its batch.
    fn before(&self) -> Option<&Individual<'f>> {
        let before = self.earlier.last();
        before.filter(|before| before.batch == self.refused.batch)
    }

    /// The earlier one whose counter it has, although it ascends in its batch.
    fn repeated(&self) -> Option<&Individual<'f>> {
        let counter = self.refused.counter();
        let ascends = counter > self.before().map_or(0, Individual::counter);
        let repeated = self.earlier.iter().find(|found| found.counter() == counter);
        repeated.filter(|_| ascends)
    }

    /// Of another batch, since it ascends in its own.
    pub fn repeats(&self) -> bool {
        self.repeated().is_some()
    }

    pub fn repeats_another_sender(&self) -> bool {
        let own = &self.refused.record[SENDER];
        let repeated = self.repeated();
        repeated.is_some_and(|repeated| repeated.record[SENDER] != *own)
    }

    pub fn repeats_the_first(&self) -> bool {
        let first = self.earlier.first().map(|first| first.place);
        self.repeated()
            .is_some_and(|found| Some(found.place) == first)
    }

    pub fn repeats_the_one_before(&self) -> bool {
        let last = self.earlier.last().map(|last| last.place);
        self.repeated()
            .is_some_and(|found| Some(found.place) == last)
    }

    pub fn repeats_in_the_last(&self) -> bool {
        self.is_last && self.repeats()
    }

    /// In order, and not the first of its batch: only a look at other batches finds it.
    pub fn repeats_within(&self) -> bool {
        self.before().is_some() && self.repeats()
    }

    pub fn is_first_zero(&self) -> bool {
        self.before().is_none() && self.refused.counter() == 0
    }

    pub fn is_later_zero(&self) -> bool {
        self.is_first_zero() && !self.earlier.is_empty()
    }

    /// Below the one before in its batch, and nowhere else.
    pub fn falls(&self) -> bool {
        let counter = self.refused.counter();
        let known = self.earlier.iter().any(|found| found.counter() == counter);
        let before = self.before();
        !known && before.is_some_and(|before| counter < before.counter())
    }

    pub fn begins_again(&self) -> bool {
        let before = self.before().map(Individual::counter);
        before == Some(HIGHEST) && self.refused.counter() == 1
    }
}

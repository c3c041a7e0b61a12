//! Batches by the counters that they reach from and to. Only those that overlap can hold a counter of each other's.

use super::repeats;
use super::words::{counter, Record};

/// Bits of a counter, of which all seven digits take 24, and of a place.
const COUNTER_BITS: u32 = 24;
const PLACE_BITS: u32 = 14;

/// First and last counter of a batch, and the place of its first individual record, in the order in which they are sorted.
#[derive(Clone, Copy, PartialEq, Eq, PartialOrd, Ord)]
struct Span(u64);

impl Span {
    fn new(first: u64, last: u64, place: usize) -> Self {
        Span((first << COUNTER_BITS | last) << PLACE_BITS | place as u64)
    }

    fn first(self) -> u64 {
        self.0 >> (COUNTER_BITS + PLACE_BITS)
    }

    fn last(self) -> u64 {
        self.0 >> PLACE_BITS & ((1 << COUNTER_BITS) - 1)
    }

    fn place(self) -> usize {
        (self.0 & ((1 << PLACE_BITS) - 1)) as usize
    }
}

/// The first individual record whose counter an earlier one has. All of these records are good by themselves.
pub fn first_repeat(records: &[Record]) -> Option<usize> {
    let mut spans = spans(records);
    spans.sort_unstable();
    if are_distinct(records, &spans) {
        return None;
    }
    repeats::first_of(records)
}

/// All batches that hold individual records. The last may have been broken off by a fault.
fn spans(records: &[Record]) -> Vec<Span> {
    let mut spans = Vec::new();
    // Behind the file header and the first batch header.
    let mut first = 2;
    for (place, record) in records.iter().enumerate() {
        if record[0] == b'8' {
            spans.push(span(records, first, place));
            first = place + 2;
        }
    }
    if records.get(first).is_some_and(|record| record[0] == b'6') {
        spans.push(span(records, first, records.len()));
    }
    spans
}

/// A batch from its first individual record up to this end. Before that stands its last one, or an additional that repeats the counter.
fn span(records: &[Record], first: usize, end: usize) -> Span {
    Span::new(counter(&records[first]), counter(&records[end - 1]), first)
}

/// Whether no counter occurs twice, as far as that is told quickly.
fn are_distinct(records: &[Record], spans: &[Span]) -> bool {
    // As many bits as are set to zero in no time beside the reading.
    let mut page = Page {
        words: Vec::new(),
        left: records.len(),
    };
    let (mut begin, mut highest) = (0, 0);
    for (index, span) in spans.iter().enumerate() {
        if span.first() > highest {
            if !page.takes(records, &spans[begin..index], highest) {
                return false;
            }
            begin = index;
        }
        highest = highest.max(span.last());
    }
    page.takes(records, &spans[begin..], highest)
}

/// A bit for each counter that overlapping batches can have.
struct Page {
    words: Vec<u64>,
    /// How many words may still be used.
    left: usize,
}

impl Page {
    /// Whether the counters of batches that overlap, up to this highest one, differ and do not lie too far apart.
    fn takes(&mut self, records: &[Record], overlapping: &[Span], highest: u64) -> bool {
        let [lowest, _, ..] = overlapping else {
            return true;
        };
        let words = (highest - lowest.first()) as usize / 64 + 1;
        let Some(left) = self.left.checked_sub(words) else {
            return false;
        };
        self.left = left;
        self.words.clear();
        self.words.resize(words, 0);
        let lowest = lowest.first();
        let mut batches = overlapping.iter();
        batches.all(|span| self.takes_batch(&records[span.place()..], lowest))
    }

    /// Individual records and additionals come in no order, so nothing branches on them: an additional adds no bit.
    fn takes_batch(&mut self, records: &[Record], lowest: u64) -> bool {
        let mut known = 0;
        let entries = records.iter().take_while(|record| record[0] != b'8');
        for record in entries {
            let index = (counter(record) - lowest) as usize;
            let bit = u64::from(record[0] == b'6') << (index % 64);
            let word = &mut self.words[index / 64];
            known |= *word & bit;
            *word |= bit;
        }
        known == 0
    }
}

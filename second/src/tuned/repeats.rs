//! The first counter that occurs twice, wherever the counters lie. Takes as long for any of them.

use super::words::{counter, Record};

/// Up to so many counters are sorted; more are dealt into pages.
const FEW: usize = 250;

/// Bits of a counter within its page, and bits of a place.
const PAGE_BITS: u32 = 12;
const PLACE_BITS: u32 = 14;

/// The counters of a page, a bit for each.
const WORDS: usize = (1 << PAGE_BITS) / 64;

/// The place of the later of two. All of these records are good by themselves.
pub fn first_of(records: &[Record]) -> Option<usize> {
    let counters = counters(records);
    if counters.len() <= FEW {
        first_of_few(counters)
    } else {
        first_of_many(&counters)
    }
}

/// Each counter, and its place in the lower bits.
fn counters(records: &[Record]) -> Vec<u64> {
    let individuals = records.iter().enumerate();
    let individuals = individuals.filter(|(_, record)| record[0] == b'6');
    individuals
        .map(|(place, record)| counter(record) << PLACE_BITS | place as u64)
        .collect()
}

fn place(counter: u64) -> usize {
    (counter & ((1 << PLACE_BITS) - 1)) as usize
}

/// Equal counters stand side by side once they are sorted, the earlier first.
fn first_of_few(mut counters: Vec<u64>) -> Option<usize> {
    counters.sort_unstable();
    let pairs = counters.windows(2);
    let repeats = pairs.filter(|pair| pair[0] >> PLACE_BITS == pair[1] >> PLACE_BITS);
    repeats.map(|pair| place(pair[1])).min()
}

/// Page by page, so that the same few bits serve for all.
fn first_of_many(counters: &[u64]) -> Option<usize> {
    let (dealt, ends) = dealt_into_pages(counters);
    let mut first = None;
    let mut begin = 0;
    for end in ends.into_iter().map(usize::from) {
        let repeat = first_of_page(&dealt[begin..end]);
        first = first.into_iter().chain(repeat).min();
        begin = end;
    }
    first
}

/// Counters of a page in the order of the file.
fn first_of_page(page: &[u64]) -> Option<usize> {
    if page.len() < 2 {
        return None;
    }
    let mut bits = [0u64; WORDS];
    let mut is_known = |&&counter: &&u64| {
        let index = (counter >> PLACE_BITS) as usize % (64 * WORDS);
        let (word, bit) = (&mut bits[index / 64], 1 << (index % 64));
        let known = *word & bit != 0;
        *word |= bit;
        known
    };
    let repeat = page.iter().find(&mut is_known);
    repeat.map(|&counter| place(counter))
}

/// All counters by their page, in the order of the file within it, and where each page ends.
fn dealt_into_pages(counters: &[u64]) -> (Vec<u64>, Vec<u16>) {
    let page = |counter: u64| (counter >> (PLACE_BITS + PAGE_BITS)) as usize;
    let highest = counters.iter().copied().map(page).max().unwrap_or(0);
    // A file has fewer than 2^16 records.
    let mut ends = vec![0u16; highest + 1];
    for &counter in counters {
        ends[page(counter)] += 1;
    }
    let mut begin = 0;
    for end in &mut ends {
        (*end, begin) = (begin, begin + *end);
    }
    let mut dealt = vec![0; counters.len()];
    for &counter in counters {
        let end = &mut ends[page(counter)];
        dealt[usize::from(*end)] = counter;
        *end += 1;
    }
    (dealt, ends)
}

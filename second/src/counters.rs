//! Positions 88-94 of the individual records: ascending within a batch, and none twice in the file.

use std::collections::HashSet;

/// Those of the individual records read so far, whoever their sender.
#[derive(Default)]
pub struct Counters {
    /// That of the individual record before in the same batch; 0 where there is none.
    last: u64,
    /// Those that exceeded all before them, and so in order.
    ascending: Vec<u64>,
    /// The rest: only they are looked for and kept in a set, so that files that ascend pay nothing for it.
    fallen: HashSet<u64>,
}

impl Counters {
    /// Each batch ascends by itself: its first counter exceeds 0.
    pub fn open_batch(&mut self) {
        self.last = 0;
    }

    /// Whether the next individual record may have this counter. One that may not ends the reading.
    pub fn take(&mut self, counter: u64) -> bool {
        let exceeds = counter > self.last;
        self.last = counter;
        exceeds && self.is_first(counter)
    }

    fn is_first(&mut self, counter: u64) -> bool {
        let highest = self.ascending.last();
        if highest.is_none_or(|&highest| counter > highest) {
            self.ascending.push(counter);
            return true;
        }
        self.ascending.binary_search(&counter).is_err() && self.fallen.insert(counter)
    }
}

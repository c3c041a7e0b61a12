//! The four readers, each opening a session for every file it reads.

use second::day::Opening;
use second::generate::Draft;
use second::{proved, read, read_swept, tuned, Refusal};
use std::hint::black_box;

type Reader = fn(&Opening, &[u8]) -> Result<usize, Refusal>;

/// Which of them is the library.
pub const PROVED: usize = 0;

pub const READERS: [(&str, Reader); 4] = [
    ("proved", proved::read),
    ("tuned", tuned_read),
    ("swept", swept_read),
    ("straightforward", second_read),
];

fn tuned_read(opening: &Opening, file: &[u8]) -> Result<usize, Refusal> {
    let (_, session) = opening.open();
    tuned::read(session.rules(), file)
}

fn swept_read(opening: &Opening, file: &[u8]) -> Result<usize, Refusal> {
    let (_, session) = opening.open();
    read_swept(session.rules(), file)
}

fn second_read(opening: &Opening, file: &[u8]) -> Result<usize, Refusal> {
    let (_, session) = opening.open();
    read(session.rules(), file)
}

/// A file, the session that it is for, and what every reader must say of it.
pub struct Asked {
    opening: Opening,
    pub file: Vec<u8>,
    answer: Result<usize, Refusal>,
}

impl Asked {
    pub fn of(draft: &Draft, answer: Result<usize, Refusal>) -> Self {
        Asked {
            opening: Opening::of(&draft.rules),
            file: draft.bytes(),
            answer,
        }
    }

    pub fn good(draft: &Draft) -> Self {
        Asked::of(draft, Ok(draft.records.len()))
    }

    /// Whether this one of the readers answers as is meant.
    pub fn read_by(&self, reader: usize) -> bool {
        let (_, read) = READERS[reader];
        read(black_box(&self.opening), black_box(&self.file)) == self.answer
    }
}

//! Buffers that are lent to a job, and what it leaves of them.

use second::{Refusal, Written};

/// Bytes that no file and no tray holds, each unlike its neighbours.
pub fn lent(length: usize) -> Vec<u8> {
    (0..length).map(|index| 128 + (index % 127) as u8).collect()
}

/// The records of a file or of a tray, to be read in a failure.
pub fn lines(bytes: &[u8]) -> Vec<String> {
    let length = if bytes.starts_with(b"LO") { 96 } else { 94 };
    let lines = bytes.chunks(length);
    lines
        .map(|line| String::from_utf8_lossy(line).into_owned())
        .collect()
}

/// The answer, and these bytes where the buffer begins; the rest stays.
fn leaves(
    job: impl Fn(&mut [u8]) -> Result<usize, Refusal>,
    room: usize,
    answer: Result<usize, Refusal>,
    start: &[u8],
) {
    let before = lent(room);
    let left = Written::by(&before, job);
    assert_eq!(left.answer, answer);
    let (written, rest) = left.buffer.split_at(start.len());
    assert_eq!(lines(written), lines(start));
    assert_eq!(rest, &before[start.len()..], "the rest stays");
}

/// Into a buffer of its own length, of one byte more and of a thousand more.
pub fn writes(expected: &[u8], job: impl Fn(&mut [u8]) -> Result<usize, Refusal>) {
    let length = expected.len();
    for more in [0, 1, 1_000] {
        leaves(&job, length + more, Ok(length), expected);
    }
}

/// The refusal leaves the buffer as it was.
pub fn refuses(
    room: usize,
    number: u16,
    place: usize,
    job: impl Fn(&mut [u8]) -> Result<usize, Refusal>,
) {
    leaves(job, room, Err(Refusal { number, place }), &[]);
}

/// The refusal leaves so many spaces, and the rest as it was.
pub fn blanks(
    length: usize,
    number: u16,
    place: usize,
    job: impl Fn(&mut [u8]) -> Result<usize, Refusal>,
) {
    for more in [0, 1, 1_000] {
        let refusal = Refusal { number, place };
        leaves(&job, length + more, Err(refusal), &vec![b' '; length]);
    }
}

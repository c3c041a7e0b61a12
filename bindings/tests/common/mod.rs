//! Case L, its opening, and lent buffers.

use desk::{Currency, Fault, Opening, Place, Refusal};

pub const L: &[u8] = include_bytes!("../../../samples/case-l.txt");

pub const OPENING: Opening = Opening {
    date: 250_630,
    currency: Currency::Pesos,
    entities: &[401, 402, 403],
};

/// A character that no record may hold.
const JUNK: u8 = 0xa5;

pub fn refused<T>(fault: Fault, record: usize) -> Result<T, Refusal> {
    let place = Place::Record(record);
    Err(Refusal { fault, place })
}

/// A job lent so many bytes of junk: its answer, and the buffer afterwards.
pub fn lent(
    length: usize,
    job: impl FnOnce(&mut [u8]) -> Result<usize, Refusal>,
) -> (Result<usize, Refusal>, Vec<u8>) {
    let mut buffer = junk(length);
    let answer = job(&mut buffer);
    (answer, buffer)
}

pub fn junk(length: usize) -> Vec<u8> {
    vec![JUNK; length]
}

/// The record at a place of a file, from 0.
pub fn record(file: &[u8], place: usize) -> &[u8] {
    &file[desk::RECORD * place..][..desk::RECORD]
}

/// The tray of a good file, made by hand.
pub fn tray_of(file: &[u8]) -> Vec<u8> {
    let mut tray = Vec::new();
    for body in file.chunks_exact(desk::RECORD) {
        let mark = match body[0] {
            b'5' => b"LO",
            b'6' => b"IN",
            b'7' => b"AD",
            _ => continue,
        };
        tray.extend_from_slice(mark);
        tray.extend_from_slice(&body[..87]);
        tray.extend_from_slice(b"0000000");
    }
    tray
}

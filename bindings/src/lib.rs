//! The clearing desk of document 01 for programs in Rust: safe calls of the proved library.
//!
//! `bash bindings/library` writes the library's archive, and a program is built with it; one in another folder is named, in full, by
//! `PROVED_LIBRARY`.
//!
//! ```
//! use desk::{Currency, Fault, Opening, Place, Refusal};
//!
//! let opening = Opening {
//!     date: 250_630,
//!     currency: Currency::Pesos,
//!     entities: &[401, 402, 403],
//! };
//! match opening.read(b"no file") {
//!     Ok(records) => println!("{records} records"),
//!     Err(Refusal { place: Place::Opening, .. }) => println!("no session"),
//!     Err(Refusal { fault: Fault::Length, .. }) => println!("no whole records"),
//!     Err(refusal) => println!("{} {refusal}", refusal.number()),
//! }
//! let day = opening.day(&[b"no file", b""])?;
//! assert!(day.answers.iter().all(Result::is_err));
//! assert_eq!(day.cells[401].position, 0);
//! # Ok::<(), Refusal>(())
//! ```

#![deny(unsafe_code)]

#[allow(unsafe_code)]
pub mod calls;
mod opening;
mod refusal;

use std::convert::Infallible;

pub use opening::{Cell, Currency, Day, Opening, Reason};
pub use refusal::{Fault, Place, Refusal, UnknownNumber};

/// Bytes of a record.
pub const RECORD: usize = 94;

/// Bytes of the longest file: a buffer of so many has room for every file built.
pub const FILE_LIMIT: usize = 940_000;

/// Bytes of a tray's record, two for its mark.
pub const TRAY_RECORD: usize = 96;

/// Bytes of a buffer with room for every tray that a file is stripped to.
pub const TRAY_ROOM: usize = 960_000;

/// Bytes of a record of a company's file.
pub const COMPANY_RECORD: usize = 250;

/// Bytes of the text of a reason.
pub const TEXT: usize = 44;

/// Bytes of a motive list: one hundred lines, R00 first.
pub const MOTIVES: usize = 4_400;

/// Entity numbers 0 to 499; nobody has number 0.
pub const ENTITIES: usize = 500;

/// Bytes of the longest listing.
pub const LISTING: usize = 33_525;

/// The figure of a cell that is its position in cents. In a buffer of figures, figure `f` of entity `e` stands at `f * ENTITIES + e`.
pub const POSITION: usize = 0;

/// The figure that is the individual records sent.
pub const SENT: usize = 1;

/// The figure that is the individual records received.
pub const RECEIVED: usize = 2;

/// How many figures there are.
pub const FIGURES: usize = 3;

/// The source of a text that there is none of, in what the calls say.
pub const NOWHERE: u64 = 0;

/// The source of a text that stands in positions 36-79 of its record.
pub const IN_FILE: u64 = 1;

/// The source of a text that stands in the motive list.
pub const IN_MOTIVES: u64 = 2;

/// The place of a refused opening, in what the calls say; [`Place::Opening`] here.
pub const OPENING: u64 = u64::MAX;

/// Bytes of stack that suffice for a thread that makes any call. Those that follow suffice for the call that they name.
pub const STACK: usize = 655_360;

/// For [`Opening::read`].
pub const STACK_READ: usize = 393_216;

/// For [`Opening::day`].
pub const STACK_DAY: usize = 655_360;

/// For [`Opening::day_listing`].
pub const STACK_DAY_LISTING: usize = 655_360;

/// For [`listing`].
pub const STACK_LISTING: usize = 458_752;

/// For [`Opening::extract`].
pub const STACK_EXTRACT: usize = 524_288;

/// For [`Opening::build`].
pub const STACK_BUILD: usize = 131_072;

/// For [`Opening::strip`].
pub const STACK_STRIP: usize = 524_288;

/// For [`company`].
pub const STACK_COMPANY: usize = 131_072;

/// For [`Opening::receive`].
pub const STACK_RECEIVE: usize = 524_288;

/// For [`Opening::show`].
pub const STACK_SHOW: usize = 524_288;

/// For [`Opening::reasons`].
pub const STACK_REASONS: usize = 524_288;

/// Writes the tray of a company's file, details of [`COMPANY_RECORD`] bytes and a closing record, under an LO body of 94 bytes, at the front
/// of the buffer, and counts its bytes; the rest of the buffer stays. No session is opened.
///
/// Refused by 201, then by 207, both at 0; then as the first record at fault is, at its place: a detail by 17, 203, 19 or 75, the closing
/// record by 17; then by 206, with the buffer as it was. [`TRAY_RECORD`] bytes for each record of the file are always enough.
///
/// ```
/// use desk::{company, Currency, TRAY_RECORD};
///
/// // of no details: 0 of them, 0 cents
/// let file = format!("T{:024}{:78}{:010}{:137}", 0, "", 0, "");
/// let lo = format!("5{:86}0000000", "");
/// let mut tray = [0; TRAY_RECORD];
/// company(Currency::Pesos, lo.as_bytes(), file.as_bytes(), &mut tray)?;
/// assert_eq!(tray, format!("LO{lo}").as_bytes());
/// # Ok::<(), desk::Refusal>(())
/// ```
pub fn company(
    currency: Currency,
    lo: &[u8],
    file: &[u8],
    out: &mut [u8],
) -> Result<usize, Refusal> {
    calls::company(currency, lo, file, out).counted()
}

/// What the program `positions` prints for this input: the listing of one file, or its refusal.
pub fn listing(input: &[u8]) -> Vec<u8> {
    let listed = listed::<Infallible>(|out| Ok(calls::listing(input, out) as usize));
    listed.unwrap_or_else(|never| match never {})
}

/// The text that a call leaves at the front of its buffer, and counts.
fn listed<E>(call: impl FnOnce(&mut [u8; LISTING]) -> Result<usize, E>) -> Result<Vec<u8>, E> {
    // on the heap, so that a call takes no more stack than the library does
    let mut out = vec![0; LISTING];
    let lent = out.first_chunk_mut().expect("so many bytes were lent");
    let length = call(lent)?;
    out.truncate(length);
    Ok(out)
}

//! The functions of the proved library, each as a safe one over what the caller lends; the only file with `unsafe`.
//!
//! `include/desk.h` says of each what it answers, and what it leaves in the buffers. The rest of this crate is these calls with buffers
//! of its own and answers taken apart.

use crate::{Currency, Opening, LISTING};

#[cfg(not(target_pointer_width = "64"))]
compile_error!("the proved library counts bytes in 64 bits");

/// An answer in two numbers: 0 and a count, or the refusal number and its place, which is [`OPENING`](crate::OPENING) where no session
/// was opened.
#[repr(C)]
#[derive(Clone, Copy, Debug, PartialEq, Eq)]
pub struct Spoken {
    pub number: u64,
    pub place: u64,
}

/// An answer on the text of a reason: two numbers as above, the count being the bytes of the text; then its source, one of
/// [`NOWHERE`](crate::NOWHERE), [`IN_FILE`](crate::IN_FILE) and [`IN_MOTIVES`](crate::IN_MOTIVES), and the byte of that where it begins.
#[repr(C)]
#[derive(Clone, Copy, Debug, PartialEq, Eq)]
pub struct Shown {
    pub number: u64,
    pub place: u64,
    pub source: u64,
    pub at: u64,
}

// A slice is two arguments, its pointer and its length: as one argument of sixteen bytes it would go to the stack whole where one
// register is left.
unsafe extern "C" {
    fn shaydhoqel_read(
        date: u64,
        dollars: bool,
        entities: *const u64,
        entities_length: usize,
        file: *const u8,
        file_length: usize,
    ) -> Spoken;

    fn shaydhoqel_day(
        date: u64,
        dollars: bool,
        entities: *const u64,
        entities_length: usize,
        ends: *const u64,
        ends_length: usize,
        files: *const u8,
        files_length: usize,
        answers: *mut u64,
        answers_length: usize,
        figures: *mut i64,
        figures_length: usize,
    ) -> Spoken;

    fn shaydhoqel_day_listing(
        date: u64,
        dollars: bool,
        entities: *const u64,
        entities_length: usize,
        ends: *const u64,
        ends_length: usize,
        files: *const u8,
        files_length: usize,
        out: &mut [u8; LISTING],
    ) -> Spoken;

    fn shaydhoqel_listing(input: *const u8, input_length: usize, out: &mut [u8; LISTING]) -> u64;

    fn shaydhoqel_extract(
        date: u64,
        dollars: bool,
        entities: *const u64,
        entities_length: usize,
        entity: u64,
        file: *const u8,
        file_length: usize,
        out: *mut u8,
        out_length: usize,
    ) -> Spoken;

    fn shaydhoqel_build(
        date: u64,
        dollars: bool,
        entities: *const u64,
        entities_length: usize,
        header: *const u8,
        header_length: usize,
        tray: *const u8,
        tray_length: usize,
        out: *mut u8,
        out_length: usize,
    ) -> Spoken;

    fn shaydhoqel_strip(
        date: u64,
        dollars: bool,
        entities: *const u64,
        entities_length: usize,
        file: *const u8,
        file_length: usize,
        out: *mut u8,
        out_length: usize,
    ) -> Spoken;

    fn shaydhoqel_company(
        dollars: bool,
        lo: *const u8,
        lo_length: usize,
        file: *const u8,
        file_length: usize,
        out: *mut u8,
        out_length: usize,
    ) -> Spoken;

    fn shaydhoqel_receive(
        date: u64,
        dollars: bool,
        entities: *const u64,
        entities_length: usize,
        entity: u64,
        file: *const u8,
        file_length: usize,
    ) -> Spoken;

    fn shaydhoqel_show(
        date: u64,
        dollars: bool,
        entities: *const u64,
        entities_length: usize,
        entity: u64,
        file: *const u8,
        file_length: usize,
        motives: *const u8,
        motives_length: usize,
        record: u64,
    ) -> Shown;

    fn shaydhoqel_reasons(
        date: u64,
        dollars: bool,
        entities: *const u64,
        entities_length: usize,
        entity: u64,
        file: *const u8,
        file_length: usize,
        motives: *const u8,
        motives_length: usize,
        texts: *mut u64,
        texts_length: usize,
    ) -> Spoken;
}

/// A call that begins with an opening: plain arguments, then slices as pointer and length, then what is left.
macro_rules! opened {
    ($job:ident, $opening:expr, [$($plain:expr),*], [$($slice:expr),*] $(, $out:expr)*) => {
        $job(
            $opening.date,
            dollars($opening.currency),
            $opening.entities.as_ptr(),
            $opening.entities.len(),
            $($plain,)*
            $($slice.as_ptr(), $slice.len(),)*
            $($out),*
        )
    };
}

fn dollars(currency: Currency) -> bool {
    currency == Currency::Dollars
}

pub fn read(opening: &Opening, file: &[u8]) -> Spoken {
    // SAFETY: each pointer comes with its slice's length, borrowed for the time of the call, which is as long as the library uses it; it
    // only reads.
    unsafe { opened!(shaydhoqel_read, opening, [], [file]) }
}

/// Answer `i` stands in `answers[2 * i]` and the element behind it, where there is room for both; figure `f` of entity `e` in
/// `figures[f * ENTITIES + e]`, where there is room for it.
pub fn day(
    opening: &Opening,
    ends: &[u64],
    files: &[u8],
    answers: &mut [u64],
    figures: &mut [i64],
) -> Spoken {
    let (answers, answers_length) = (answers.as_mut_ptr(), answers.len());
    let (figures, figures_length) = (figures.as_mut_ptr(), figures.len());
    // SAFETY: as for reading; what is written is borrowed mutably, so that it overlaps nothing, and an array is whole.
    unsafe {
        opened!(
            shaydhoqel_day,
            opening,
            [],
            [ends, files],
            answers,
            answers_length,
            figures,
            figures_length
        )
    }
}

/// Counts the bytes at the front of the buffer.
pub fn day_listing(
    opening: &Opening,
    ends: &[u64],
    files: &[u8],
    out: &mut [u8; LISTING],
) -> Spoken {
    // SAFETY: as for a day.
    unsafe { opened!(shaydhoqel_day_listing, opening, [], [ends, files], out) }
}

/// The number of bytes at the front of the buffer.
pub fn listing(input: &[u8], out: &mut [u8; LISTING]) -> u64 {
    // SAFETY: as for a day.
    unsafe { shaydhoqel_listing(input.as_ptr(), input.len(), out) }
}

pub fn extract(opening: &Opening, entity: u64, file: &[u8], out: &mut [u8]) -> Spoken {
    let (lent, length) = (out.as_mut_ptr(), out.len());
    // SAFETY: as for a day.
    unsafe { opened!(shaydhoqel_extract, opening, [entity], [file], lent, length) }
}

pub fn build(opening: &Opening, header: &[u8], tray: &[u8], out: &mut [u8]) -> Spoken {
    let (lent, length) = (out.as_mut_ptr(), out.len());
    // SAFETY: as for a day.
    unsafe { opened!(shaydhoqel_build, opening, [], [header, tray], lent, length) }
}

pub fn strip(opening: &Opening, file: &[u8], out: &mut [u8]) -> Spoken {
    let (lent, length) = (out.as_mut_ptr(), out.len());
    // SAFETY: as for a day.
    unsafe { opened!(shaydhoqel_strip, opening, [], [file], lent, length) }
}

pub fn company(currency: Currency, lo: &[u8], file: &[u8], out: &mut [u8]) -> Spoken {
    let (lent, length) = (out.as_mut_ptr(), out.len());
    // SAFETY: as for a day.
    unsafe {
        shaydhoqel_company(
            dollars(currency),
            lo.as_ptr(),
            lo.len(),
            file.as_ptr(),
            file.len(),
            lent,
            length,
        )
    }
}

pub fn receive(opening: &Opening, entity: u64, file: &[u8]) -> Spoken {
    // SAFETY: as for reading.
    unsafe { opened!(shaydhoqel_receive, opening, [entity], [file]) }
}

pub fn show(opening: &Opening, entity: u64, file: &[u8], motives: &[u8], record: u64) -> Shown {
    // SAFETY: as for reading.
    unsafe { opened!(shaydhoqel_show, opening, [entity], [file, motives], record) }
}

/// The source of record `i` stands in `texts[2 * i]` and its byte behind it, where there is room for both.
pub fn reasons(
    opening: &Opening,
    entity: u64,
    file: &[u8],
    motives: &[u8],
    texts: &mut [u64],
) -> Spoken {
    let (texts, texts_length) = (texts.as_mut_ptr(), texts.len());
    // SAFETY: as for a day.
    unsafe {
        opened!(
            shaydhoqel_reasons,
            opening,
            [entity],
            [file, motives],
            texts,
            texts_length
        )
    }
}

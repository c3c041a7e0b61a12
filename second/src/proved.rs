//! The only file that knows the proved library.

#![cfg(feature = "proved")]

use crate::day::{Day, Opening, Outcome};
use crate::reasons::{Shown, REASON};
use crate::session::CELLS;
use crate::{Cell, Currency, Refusal, Source, Standing, Written};
use desk::calls::{self, Spoken};
use desk::{FIGURES, LISTING, POSITION, RECEIVED, SENT};

/// Where the library says that a refused opening stands.
pub const OPENING: usize = desk::OPENING as usize;

/// What buffers hold before a call: no figure, number or text that could be right.
const JUNK_BYTE: u8 = 0xa5;
const JUNK: u64 = 0xa5a5_a5a5_a5a5_a5a5;

/// Words behind the answers, and behind the figures, that nobody lent.
const GUARD: usize = 2;

/// Bytes before and behind a buffer that nobody lent: more than two records.
const GUARD_BYTES: usize = 200;

/// What the library must say of every job where the second program refuses the opening; nothing is written then.
pub fn not_opened(opening: &Opening) -> Option<Refusal> {
    let (answer, _) = opening.open();
    let Refusal { number, .. } = answer.err()?;
    let place = OPENING;
    Some(Refusal { number, place })
}

/// A day of which this is all that is said: no file is answered for.
pub fn day_not_opened(refusal: Refusal) -> Outcome {
    Outcome {
        opening: Err(refusal),
        answers: Vec::new(),
        cells: [Cell::default(); CELLS],
    }
}

pub fn read(opening: &Opening, file: &[u8]) -> Result<usize, Refusal> {
    counted(calls::read(&theirs(opening), file))
}

pub fn day(day: &Day) -> Outcome {
    let lent = 2 * day.ends().len();
    let mut answers = vec![JUNK; lent + GUARD];
    let mut figures = [JUNK as i64; FIGURES * CELLS + GUARD];
    let said = calls::day(
        &theirs(&day.opening),
        day.ends(),
        day.bytes(),
        &mut answers[..lent],
        &mut figures[..FIGURES * CELLS],
    );
    assert_eq!(answers[lent..], [JUNK; GUARD], "written behind the answers");
    let behind = &figures[FIGURES * CELLS..];
    assert_eq!(behind, [JUNK as i64; GUARD], "written behind the figures");
    let opening = answer(said.number, said.place);
    if let Err(refusal) = opening {
        let written = answers.iter().any(|&number| number != JUNK)
            || figures.iter().any(|&figure| figure != JUNK as i64);
        assert!(!written, "written, and yet the opening was refused");
        return day_not_opened(refusal);
    }
    Outcome {
        opening,
        answers: answers[..lent]
            .chunks_exact(2)
            .map(|said| answer(said[0], said[1]))
            .collect(),
        cells: std::array::from_fn(|entity| Cell {
            position: figures[POSITION * CELLS + entity],
            sent: figures[SENT * CELLS + entity] as u64,
            received: figures[RECEIVED * CELLS + entity] as u64,
        }),
    }
}

/// The listing of the session at the end of a day, or the opening's refusal.
pub fn day_listing(day: &Day) -> Result<Result<Vec<u8>, Refusal>, String> {
    let mut out = [JUNK_BYTE; LISTING];
    let said = calls::day_listing(&theirs(&day.opening), day.ends(), day.bytes(), &mut out);
    let answer = counted(said);
    let text = handed_over(&out, answer.unwrap_or(0))?;
    Ok(answer.map(|_| text))
}

pub fn listing(input: &[u8]) -> Result<Vec<u8>, String> {
    let mut out = [JUNK_BYTE; LISTING];
    let written = calls::listing(input, &mut out);
    handed_over(&out, place(written))
}

/// The call alone, for measuring: opens a session and extracts.
pub fn extract(
    opening: &Opening,
    entity: u64,
    file: &[u8],
    out: &mut [u8],
) -> Result<usize, Refusal> {
    counted(calls::extract(&theirs(opening), entity, file, out))
}

/// The call alone, for measuring: opens a session and builds.
pub fn build(
    opening: &Opening,
    header: &[u8],
    tray: &[u8],
    out: &mut [u8],
) -> Result<usize, Refusal> {
    counted(calls::build(&theirs(opening), header, tray, out))
}

/// The call alone, for measuring: opens a session and strips.
pub fn strip(opening: &Opening, file: &[u8], out: &mut [u8]) -> Result<usize, Refusal> {
    counted(calls::strip(&theirs(opening), file, out))
}

/// The call alone, for measuring: no session is opened.
pub fn company(
    currency: Currency,
    lo: &[u8],
    company: &[u8],
    out: &mut [u8],
) -> Result<usize, Refusal> {
    counted(calls::company(their_currency(currency), lo, company, out))
}

/// The call alone, for measuring too: opens a session and receives.
pub fn receive(opening: &Opening, entity: u64, file: &[u8]) -> Result<usize, Refusal> {
    counted(calls::receive(&theirs(opening), entity, file))
}

/// The reason with its bytes from where it is said to stand, or what is wrong with the way it was said.
pub fn shown(
    opening: &Opening,
    entity: u64,
    file: &[u8],
    motives: &[u8],
    record: u64,
) -> Result<Shown, String> {
    let said = calls::show(&theirs(opening), entity, file, motives, record);
    if said.number != 0 {
        let nothing = said.source == 0 && said.at == 0;
        let refusal = refusal(said.number, said.place);
        return nothing.then_some(Err(refusal)).ok_or(format!("{said:?}"));
    }
    let standing = standing(said.source, said.at);
    let standing = standing.filter(|_| place(said.place) == REASON);
    let text = standing.and_then(|standing| Some((standing, standing.text(file, motives)?)));
    let (standing, text) = text.ok_or(format!("{said:?}"))?;
    Ok(Ok((standing, text.to_vec())))
}

fn standing(source: u64, at: u64) -> Option<Standing> {
    let source = match source {
        1 => Source::File,
        2 => Source::Motives,
        _ => return None,
    };
    let at = place(at);
    Some(Standing { source, at })
}

/// The two numbers that stand for a record's reason.
pub fn in_numbers(reason: Option<Standing>) -> [u64; 2] {
    match reason {
        None => [0, 0],
        Some(Standing { source, at }) => match source {
            Source::File => [1, at as u64],
            Source::Motives => [2, at as u64],
        },
    }
}

/// What all reasons of a file leave behind: the answer, and all numbers that were lent, as they are afterwards.
#[derive(Clone, Debug, PartialEq, Eq)]
pub struct Told {
    pub answer: Result<usize, Refusal>,
    pub texts: Vec<u64>,
}

/// Lends a copy of these numbers, or says that some were written behind them.
pub fn reasons(
    opening: &Opening,
    entity: u64,
    file: &[u8],
    motives: &[u8],
    texts: &[u64],
) -> Result<Told, String> {
    let mut numbers = [texts, &[JUNK; GUARD]].concat();
    let (lent, behind) = numbers.split_at_mut(texts.len());
    let answer = counted(calls::reasons(
        &theirs(opening),
        entity,
        file,
        motives,
        lent,
    ));
    if *behind != [JUNK; GUARD] {
        return Err(format!("answered {answer:?}, wrote behind the numbers"));
    }
    let texts = lent.to_vec();
    Ok(Told { answer, texts })
}

/// The answer and the buffer afterwards, or what was written outside of it.
pub fn extracted(
    opening: &Opening,
    entity: u64,
    file: &[u8],
    buffer: &[u8],
) -> Result<Written, String> {
    guarded(buffer, |lent| extract(opening, entity, file, lent))
}

/// As `extracted`.
pub fn built(
    opening: &Opening,
    header: &[u8],
    tray: &[u8],
    buffer: &[u8],
) -> Result<Written, String> {
    guarded(buffer, |lent| build(opening, header, tray, lent))
}

/// As `extracted`.
pub fn stripped(opening: &Opening, file: &[u8], buffer: &[u8]) -> Result<Written, String> {
    guarded(buffer, |lent| strip(opening, file, lent))
}

/// As `extracted`, without a session.
pub fn made(
    currency: Currency,
    lo: &[u8],
    company: &[u8],
    buffer: &[u8],
) -> Result<Written, String> {
    guarded(buffer, |lent| self::company(currency, lo, company, lent))
}

/// Lends a copy of the buffer with bytes on both sides that nobody lent.
fn guarded(
    buffer: &[u8],
    job: impl FnOnce(&mut [u8]) -> Result<usize, Refusal>,
) -> Result<Written, String> {
    let guard = [JUNK_BYTE; GUARD_BYTES];
    let mut bytes = [&guard, buffer, &guard].concat();
    let (before, lent_and_behind) = bytes.split_at_mut(GUARD_BYTES);
    let (lent, behind) = lent_and_behind.split_at_mut(buffer.len());
    let answer = job(lent);
    if before != guard {
        return Err(format!("answered {answer:?}, wrote before the buffer"));
    }
    if behind != guard {
        return Err(format!("answered {answer:?}, wrote behind the buffer"));
    }
    let buffer = lent.to_vec();
    Ok(Written { answer, buffer })
}

/// The same opening in the words of the library's bindings.
fn theirs(opening: &Opening) -> desk::Opening<'_> {
    desk::Opening {
        date: opening.date,
        currency: their_currency(opening.currency),
        entities: &opening.entities,
    }
}

fn their_currency(currency: Currency) -> desk::Currency {
    match currency {
        Currency::Pesos => desk::Currency::Pesos,
        Currency::Dollars => desk::Currency::Dollars,
    }
}

/// Number 0 is acceptance: the place is then the number of records read or bytes written.
fn counted(said: Spoken) -> Result<usize, Refusal> {
    match said.number {
        0 => Ok(place(said.place)),
        number => Err(refusal(number, said.place)),
    }
}

/// The text in a buffer, or what is wrong with the way it was handed over.
fn handed_over(out: &[u8; LISTING], written: usize) -> Result<Vec<u8>, String> {
    let split = out.split_at_checked(written);
    let (text, rest) = split.ok_or_else(|| format!("said that it wrote {written} bytes"))?;
    match rest.iter().position(|&byte| byte != JUNK_BYTE) {
        None => Ok(text.to_vec()),
        Some(index) => Err(format!(
            "wrote behind its text, at {}: {}",
            text.len() + index,
            text.escape_ascii()
        )),
    }
}

/// Acceptance is 0 and 0; 0 with a place stays visible as a refusal that nobody gives.
fn answer(number: u64, place: u64) -> Result<(), Refusal> {
    match (number, place) {
        (0, 0) => Ok(()),
        _ => Err(refusal(number, place)),
    }
}

/// Answers beyond all numbers stay visible as a difference instead of a panic.
fn refusal(number: u64, said_place: u64) -> Refusal {
    Refusal {
        number: u16::try_from(number).unwrap_or(u16::MAX),
        place: place(said_place),
    }
}

fn place(said: u64) -> usize {
    usize::try_from(said).unwrap_or(usize::MAX)
}

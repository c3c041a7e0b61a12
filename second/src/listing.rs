//! What the program `positions` prints for its standard input.

use crate::fields::{date, number};
use crate::refusal::LENGTH;
use crate::{Cell, Currency, Refusal, Session};
use std::ops::RangeInclusive;

/// The longest standard input; whatever is longer is refused unread.
pub const LONGEST_INPUT: usize = 65_424;

const DOLLARS: RangeInclusive<u64> = 501..=999;

pub fn listing(input: &[u8]) -> Vec<u8> {
    let text = match presented(input) {
        Ok(session) => positions(&session),
        Err(refusal) => format!("REFUSED {} AT {}\n", refusal.number, refusal.place),
    };
    text.into_bytes()
}

/// A session that suits the input, after the input was presented to it.
fn presented(input: &[u8]) -> Result<Session, Refusal> {
    if input.len() > LONGEST_INPUT {
        return Err(Refusal::of_no_record(LENGTH));
    }
    let everyone: Vec<u64> = (1..=499).collect();
    let (opening, mut session) = Session::open(header_date(input), currency(input), &everyone);
    opening?;
    session.present(input)?;
    Ok(session)
}

fn header_date(input: &[u8]) -> u64 {
    let field = input.get(23..29);
    field.and_then(date).unwrap_or(101)
}

fn currency(input: &[u8]) -> Currency {
    let origin = input.get(14..18).and_then(number);
    if origin.is_some_and(|origin| DOLLARS.contains(&origin)) {
        Currency::Dollars
    } else {
        Currency::Pesos
    }
}

/// The lines of a session, however many files it has seen.
pub fn positions(session: &Session) -> String {
    let mut text = String::from("ENTITY SENT RECEIVED NET\n");
    let mut sum = Cell::default();
    for (entity, cell) in session.cells().iter().enumerate() {
        if cell.sent > 0 || cell.received > 0 {
            text += &line(&entity.to_string(), cell);
        }
        sum.sent += cell.sent;
        sum.received += cell.received;
        sum.position += cell.position;
    }
    text + &line("SUM", &sum)
}

fn line(name: &str, cell: &Cell) -> String {
    format!("{name} {} {} {}\n", cell.sent, cell.received, cell.position)
}

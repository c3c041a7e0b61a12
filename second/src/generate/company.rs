//! Company files: a currency, an LO body, a file of 250-character records, and a buffer full of something.

mod bytes;
mod closing;
mod dates;
mod draft;
mod faults;
mod flips;
mod good;
mod large;
mod lengths;
mod lo;
mod odd;
mod orders;
mod sums;

use super::draft::put_number;
use super::entities::field_number;
use super::lending::{Input, Lending};
use super::opening::{accepted, everybody};
use super::random::{Random, COMPANIES};
use crate::day::Opening;
use crate::fields::date;
use crate::tray::TRAY_RECORD;
use crate::{company, Currency, Refusal, Rules, Session};
use draft::{tray_of, CompanyDraft, DETAIL};

pub struct Company {
    pub lo: Vec<u8>,
    pub file: Vec<u8>,
    /// Whether the LO body is one that the reading takes, in the session that the case has.
    pub lo_reads: bool,
}

/// The session is not the job's: it gives the currency, and is the one in which the tray is built.
pub type CompanyCase = Lending<Company>;

pub fn generate_company(seed: u64, number: u64) -> CompanyCase {
    let mut random = Random::new(seed, COMPANIES + number);
    let draft = match number.checked_sub(large::LARGE) {
        None => large::large_file(&mut random, number),
        Some(number) => any_draft(&mut random, number),
    };
    let room = match draft.over {
        Some(over) => draft.needed().saturating_add_signed(over),
        None => any_room(&mut random, draft.needed()),
    };
    case(&mut random, draft, room)
}

fn case(random: &mut Random, draft: CompanyDraft, room: usize) -> CompanyCase {
    let printed = draft.lo.get(69..75).and_then(date);
    let opening = Opening {
        date: printed.unwrap_or(101),
        currency: draft.currency,
        entities: everybody(),
    };
    let opened = accepted("everybody", opening);
    let (family, meant) = (draft.family, draft.meant(room));
    let input = Company {
        file: draft.bytes(),
        lo_reads: draft.lo_reads && printed.is_some(),
        lo: draft.lo,
    };
    Lending::new(random, family, opened, input, room, meant)
}

/// So many files in a row hold all families.
const FAMILIES: u64 = 26;

fn any_draft(random: &mut Random, number: u64) -> CompanyDraft {
    let (round, family) = ((number / FAMILIES) as usize, number % FAMILIES);
    match family {
        0..=3 => good::any_good(random),
        4 | 5 => flips::detail_byte(random, 2 * round + family as usize % 2),
        6 => flips::closing_byte(random, round),
        7 | 8 => faults::one_fault(random, 2 * round + family as usize % 2),
        9 | 10 => faults::two_in_one_record(random, 2 * round + family as usize % 2),
        11 => faults::two_in_two_records(random, round),
        12 => closing::fault_and_closing(random, round),
        13 | 14 => closing::closing_wrong(random),
        15 => sums::any_sum(random),
        16 => lengths::bad_length(random, round),
        17 => odd::bad_lo_body(random, round),
        18 => orders::out_of_order(random),
        19 => odd::lo_of_no_date(random),
        20 => closing::closing_alone(random),
        21 => lengths::any_bytes(random),
        22 => faults::other_currency(random),
        23 => odd::odd_lo_body(random),
        24 => faults::due_wrong(random),
        _ => flips::text_byte(random, round),
    }
}

/// Around the tray's length, and far from it.
fn any_room(random: &mut Random, length: usize) -> usize {
    let shorter = random.below(length + 1);
    let more = random.between(1, 300);
    match random.below(20) {
        0..=8 => length,
        9 | 10 => length + 1,
        11 | 12 => length + more,
        13 => length + TRAY_RECORD,
        14 => length + 5_000,
        15 | 16 => length.saturating_sub(1),
        17 => length.saturating_sub(TRAY_RECORD),
        18 => *random.pick(&[0, 1, TRAY_RECORD - 1]),
        _ => shorter,
    }
}

/// A good file of so many details, and the currency that it is in.
pub fn good_company(random: &mut Random, details: usize) -> (Currency, Company) {
    let draft = good::good_file(random, details);
    let input = Company {
        file: draft.bytes(),
        lo_reads: draft.lo_reads,
        lo: draft.lo,
    };
    (draft.currency, input)
}

/// A header body that the reading takes by these rules, where 401 is on the roster.
pub fn header_body(rules: &Rules) -> Vec<u8> {
    let mut header = b"101 000000010 ....00010......    A094101".to_vec();
    header.resize(94, b' ');
    put_number(&mut header, 15, 18, field_number(rules.currency, 401));
    put_number(&mut header, 24, 29, rules.date);
    header
}

impl Input for Company {
    fn run(&self, session: &Session, lent: &mut [u8]) -> Result<usize, Refusal> {
        company(session.rules().currency, &self.lo, &self.file, lent)
    }

    /// An LO and an order for each detail: as many as the file has records.
    fn needed(&self, _: &Rules) -> usize {
        TRAY_RECORD * (self.file.len() / DETAIL)
    }

    fn output(&self, rules: &Rules) -> Vec<u8> {
        tray_of(rules.currency, &self.lo, &self.file)
    }
}

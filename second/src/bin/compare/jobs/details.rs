//! What is wrong with a record of a company's file, by its parts, each a bit.

use super::job::Seen;
use second::fields::{all_blank, all_digits, is_character, number};
use second::generate::company::CompanyCase;
use second::Currency;
use std::ops::Range;

pub const KIND: u32 = 1;
pub const BLOCK_1: u32 = 2;
pub const BLOCK_2: u32 = 4;
pub const ENTITY: u32 = 8;
pub const REFERENCE: u32 = 16;
pub const CLIENT: u32 = 32;
pub const CURRENCY: u32 = 64;
pub const AMOUNT: u32 = 128;
pub const DUE: u32 = 256;

/// All that is refused by 17.
pub const FORMAT: u32 = KIND | BLOCK_1 | BLOCK_2 | ENTITY | REFERENCE | CLIENT;

/// Of a closing record.
pub const TOTAL: u32 = 2;
pub const WITH_MONEY: u32 = 4;
pub const WITHOUT_MONEY: u32 = 8;
pub const SUM: u32 = 16;

const IN_BLOCK_1: Range<usize> = 33..41;
const IN_BLOCK_2: Range<usize> = 44..58;
const TEN_DIGITS: u64 = 9_999_999_999;
pub const IN_CLIENT: Range<usize> = 58..80;
pub const IN_REFERENCE: Range<usize> = 88..103;
const IN_AMOUNT: Range<usize> = 103..113;

pub fn is_text(field: &[u8]) -> bool {
    !all_blank(field) && field.iter().copied().all(is_character)
}

/// The bits for which their parts do not hold.
fn bits(parts: &[(u32, bool)]) -> u32 {
    let wrong = parts.iter().filter(|(_, holds)| !holds);
    wrong.map(|(bit, _)| bit).sum()
}

pub fn due_of(lo: &[u8]) -> Option<Vec<u8>> {
    let date = second::fields::date(lo.get(69..75)?)?;
    let (year, month, day) = (date / 10_000, date / 100 % 100, date % 100);
    Some(format!("{day:02}{month:02}20{year:02}").into_bytes())
}

impl Seen<CompanyCase> {
    pub fn records(&self) -> Vec<&[u8]> {
        self.case.input.file.chunks_exact(250).collect()
    }

    pub fn details(&self) -> usize {
        (self.case.input.file.len() / 250).saturating_sub(1)
    }

    pub fn lo(&self) -> &[u8] {
        &self.case.input.lo
    }

    /// Which of its parts are wrong in this detail.
    fn wrong_in(&self, detail: &[u8]) -> u32 {
        let code: &[u8] = match self.case.rules.currency {
            Currency::Pesos => b"80",
            Currency::Dollars => b"82",
        };
        let due = due_of(self.lo());
        let entity = number(&detail[33..36]);
        bits(&[
            (KIND, detail[0] == b'D'),
            (BLOCK_1, all_digits(&detail[IN_BLOCK_1])),
            (BLOCK_2, all_digits(&detail[IN_BLOCK_2])),
            (
                ENTITY,
                entity.is_none_or(|entity| (1..500).contains(&entity)),
            ),
            (REFERENCE, is_text(&detail[IN_REFERENCE])),
            (CLIENT, is_text(&detail[IN_CLIENT])),
            (CURRENCY, detail[113..115] == *code),
            (
                AMOUNT,
                number(&detail[IN_AMOUNT]).is_some_and(|cents| cents > 0),
            ),
            (DUE, due.is_some_and(|due| detail[25..33] == due)),
        ])
    }

    /// The detail at which it is refused.
    pub fn refused_detail(&self) -> Option<&[u8]> {
        let refused = self.answer.answer.err()?;
        let is_of_record = !matches!(refused.number, 201 | 206 | 207);
        let at_detail = is_of_record && refused.place < self.details();
        self.records()
            .get(refused.place)
            .copied()
            .filter(|_| at_detail)
    }

    /// What is wrong with the detail at which it is refused.
    pub fn wrong(&self) -> u32 {
        self.refused_detail()
            .map_or(0, |detail| self.wrong_in(detail))
    }

    /// What is wrong with the closing record, where that is refused.
    pub fn wrong_closing(&self) -> u32 {
        if !self.refused(17) || self.place() != self.details() {
            return 0;
        }
        self.not_closed()
    }

    /// What is wrong with the closing record, refused or not.
    pub fn not_closed(&self) -> u32 {
        let records = self.records();
        let Some((closing, details)) = records.split_last() else {
            return 0;
        };
        let cents = details
            .iter()
            .filter_map(|detail| number(&detail[IN_AMOUNT]));
        let (count, sum) = (details.len(), cents.sum::<u64>());
        bits(&[
            (KIND, closing[0] == b'T'),
            (TOTAL, closing[1..11] == *format!("{count:010}").as_bytes()),
            (
                WITH_MONEY,
                closing[11..18] == *format!("{count:07}").as_bytes(),
            ),
            (WITHOUT_MONEY, closing[18..25] == *b"0000000"),
            (SUM, closing[103..113] == *format!("{sum:010}").as_bytes()),
        ])
    }

    pub fn sum(&self) -> u64 {
        let records = self.records();
        let details = &records[..self.details()];
        let cents = details
            .iter()
            .filter_map(|detail| number(&detail[IN_AMOUNT]));
        cents.sum()
    }

    /// Whether the sum needs eleven digits and the closing record holds the last ten.
    pub fn holds_last_ten(&self) -> bool {
        let records = self.records();
        let held = number(&records[self.details()][IN_AMOUNT]);
        let sum = self.sum();
        sum > TEN_DIGITS && held == Some(sum % (TEN_DIGITS + 1))
    }

    /// Two parts of one detail, as a number of its own for each pair.
    pub fn pair(&self) -> Option<usize> {
        let wrong = self.wrong();
        (wrong.count_ones() == 2).then_some(wrong as usize)
    }

    /// The only byte of this field of the refused detail that may not stand there, as its index in the record.
    fn stray(&self, part: u32, field: Range<usize>, good: fn(u8) -> bool) -> Option<usize> {
        let detail = self.refused_detail().filter(|_| self.wrong() == part)?;
        let mut strays = field.filter(|&index| !good(detail[index]));
        strays.next().filter(|_| strays.next().is_none())
    }

    pub fn stray_in_block_1(&self) -> Option<usize> {
        self.stray(BLOCK_1, IN_BLOCK_1, |byte| byte.is_ascii_digit())
    }

    pub fn stray_in_block_2(&self) -> Option<usize> {
        self.stray(BLOCK_2, IN_BLOCK_2, |byte| byte.is_ascii_digit())
    }

    pub fn stray_in_client(&self) -> Option<usize> {
        self.stray(CLIENT, IN_CLIENT, is_character)
    }

    pub fn stray_in_reference(&self) -> Option<usize> {
        self.stray(REFERENCE, IN_REFERENCE, is_character)
    }

    pub fn stray_in_amount(&self) -> Option<usize> {
        self.stray(AMOUNT, IN_AMOUNT, |byte| byte.is_ascii_digit())
    }

    /// The byte that is none of 01's characters.
    pub fn stray_byte(&self) -> Option<usize> {
        let index = self.stray_in_client().or(self.stray_in_reference())?;
        self.refused_detail()
            .map(|detail| usize::from(detail[index]))
    }

    /// The due date of a detail that is refused by 75 alone.
    pub fn wrong_due(&self) -> Option<&[u8]> {
        let detail = self.refused_detail().filter(|_| self.wrong() == DUE)?;
        Some(&detail[25..33])
    }

    /// Whether the due date is the LO body's but for its century.
    pub fn is_due_in(&self, century: &[u8]) -> bool {
        let due = due_of(self.lo()).zip(self.wrong_due());
        due.is_some_and(|(right, due)| {
            let alike = due[..4] == right[..4] && due[6..] == right[6..];
            alike && due[4..6] == *century
        })
    }
}

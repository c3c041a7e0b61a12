//! Both programs on generated company files.

use super::details::due_of;
use super::job::Seen;
use super::round_trips::company_builds;
use super::writing::Writing;
use second::generate::company::{generate_company, Company, CompanyCase};
use second::{proved, Currency, Written};

impl Writing for Company {
    const JOB: &'static str = "companies";
    const CASE: &'static str = "company";
    const RECORD: usize = 96;
    const OWN: &'static [u16] = &[17, 19, 75, 201, 203, 206, 207];
    const GENERATE: fn(u64, u64) -> CompanyCase = generate_company;

    fn by_proved(case: &CompanyCase) -> Result<Written, String> {
        let Company { lo, file, .. } = &case.input;
        proved::made(case.rules.currency, lo, file, &case.buffer)
    }

    fn check(case: &CompanyCase, _: u64, left: &Written) -> Result<(), String> {
        match left.answer {
            Ok(length) => company_builds(case, &left.buffer[..length]),
            Err(_) => Ok(()),
        }
    }

    fn file_length(&self) -> usize {
        self.file.len()
    }

    fn parts(&self) -> Vec<(String, usize, &[u8])> {
        vec![
            ("lo".into(), 94, &self.lo),
            ("company".into(), 250, &self.file),
        ]
    }
}

impl Seen<CompanyCase> {
    pub fn file_bytes(&self) -> usize {
        self.case.input.file.len()
    }

    /// Whether building must say yes to an accepted tray.
    pub fn is_to_build(&self) -> bool {
        self.case.input.lo_reads && (1..=9_996).contains(&self.details())
    }

    /// Whether a detail is refused for having the other currency's code.
    pub fn is_of_other_currency(&self) -> bool {
        let code: &[u8] = match self.case.rules.currency {
            Currency::Pesos => b"82",
            Currency::Dollars => b"80",
        };
        self.refused_detail()
            .is_some_and(|detail| detail[113..115] == *code)
    }

    pub fn accepted_details(&self) -> Vec<&[u8]> {
        let mut records = self.records();
        records.pop();
        records.into_iter().filter(|_| self.accepted()).collect()
    }

    /// Whether all accepted details are due on this day and month, or in this year, as printed.
    pub fn is_due(&self, printed: &[u8]) -> bool {
        let due = due_of(self.lo()).filter(|_| self.details() > 0);
        due.is_some_and(|due| due.starts_with(printed) || due.ends_with(printed))
    }

    /// The only position of the LO body's tail that is no zero.
    pub fn stray_in_tail(&self) -> Option<usize> {
        let lo = Some(self.lo()).filter(|lo| lo.len() == 94 && lo[0] == b'5')?;
        let mut strays = (87..94).filter(|&index| lo[index] != b'0');
        strays.next().filter(|_| strays.next().is_none())
    }

    pub fn has_no_lo(&self) -> bool {
        let lo = self.lo();
        lo.len() != 94 || lo[0] != b'5' || lo[87..] != *b"0000000"
    }

    /// What the refused detail would be refused for if nothing came before it.
    pub fn is_also(&self, parts: u32) -> bool {
        self.wrong() & parts != 0
    }
}

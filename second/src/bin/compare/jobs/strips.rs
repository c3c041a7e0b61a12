//! Both programs on generated strippings.

use super::job::Seen;
use super::round_trips::builds_again;
use super::writing::Writing;
use second::generate::built::is_as_built;
use second::generate::strip::{generate_strip, StripCase, Stripping};
use second::{proved, Written};

impl Writing for Stripping {
    const JOB: &'static str = "strips";
    const CASE: &'static str = "strip";
    const RECORD: usize = 96;
    const OWN: &'static [u16] = &[206];
    const GENERATE: fn(u64, u64) -> StripCase = generate_strip;

    fn by_proved(case: &StripCase) -> Result<Written, String> {
        proved::stripped(&case.opening, &case.input.file, &case.buffer)
    }

    fn check(case: &StripCase, _: u64, left: &Written) -> Result<(), String> {
        match left.answer {
            Ok(length) => builds_again(case, &left.buffer[..length]),
            Err(_) => Ok(()),
        }
    }

    fn file_length(&self) -> usize {
        self.file.len()
    }

    fn parts(&self) -> Vec<(String, usize, &[u8])> {
        vec![("file".into(), 94, &self.file)]
    }
}

impl Seen<StripCase> {
    /// Whether the file must come back from its tray.
    pub fn is_as_built(&self) -> bool {
        is_as_built(&self.case.input.file)
    }

    /// Whether nothing else than what the family names keeps the file from coming back.
    pub fn is_not_quite(&self, family: &str) -> bool {
        self.case.family == family && !self.is_as_built()
    }

    pub fn accepted_records(&self) -> Vec<&[u8]> {
        let records = self.case.input.file.chunks_exact(94);
        records.filter(|_| self.accepted()).collect()
    }
}

//! Both programs on generated buildings.

use super::job::Seen;
use super::round_trips::strips_to_its_tray;
use super::writing::Writing;
use second::generate::built::{built_length, malformed};
use second::generate::tray::{generate_tray, Building, TrayCase};
use second::{proved, Written};

impl Writing for Building {
    const JOB: &'static str = "trays";
    const CASE: &'static str = "tray";
    const RECORD: usize = 94;
    const OWN: &'static [u16] = &[201, 206, 207];
    const GENERATE: fn(u64, u64) -> TrayCase = generate_tray;

    fn by_proved(case: &TrayCase) -> Result<Written, String> {
        let Building { header, tray, .. } = &case.input;
        proved::built(&case.opening, header, tray, &case.buffer)
    }

    fn check(case: &TrayCase, _: u64, left: &Written) -> Result<(), String> {
        let known = case.input.reading;
        let reading = left.answer.map(|length| length / 94);
        let is_read = !reading.is_err_and(|refusal| Self::OWN.contains(&refusal.number));
        if is_read && known.is_some_and(|known| known != reading) {
            return Err(format!("the reading was to say {known:?}"));
        }
        match left.answer {
            Ok(length) => {
                let file = &left.buffer[..length];
                strips_to_its_tray(&case.opening, &case.rules, &case.input.tray, file)
            }
            Err(_) => Ok(()),
        }
    }

    fn file_length(&self) -> usize {
        built_length(&self.tray)
    }

    fn parts(&self) -> Vec<(String, usize, &[u8])> {
        vec![
            ("header".into(), 94, &self.header),
            ("tray".into(), 96, &self.tray),
        ]
    }
}

impl Seen<TrayCase> {
    pub fn header_length(&self) -> usize {
        self.case.input.header.len()
    }

    /// Bytes of the tray behind its last record.
    pub fn left_over(&self) -> usize {
        self.case.input.tray.len() % 96
    }

    pub fn tray_records(&self) -> usize {
        self.case.input.tray.len() / 96
    }

    pub fn has_lengths(&self) -> bool {
        self.header_length() == 94 && self.left_over() == 0
    }

    /// The first tray record without its form.
    pub fn malformed(&self) -> Option<usize> {
        malformed(&self.case.input.tray)
    }

    pub fn is_malformed_twice(&self) -> bool {
        let behind = |first: usize| &self.case.input.tray[96 * (first + 1)..];
        self.malformed().map(behind).and_then(malformed).is_some()
    }

    /// Whether the reading would refuse, by the generator's own knowledge, whatever else is wrong.
    pub fn is_to_be_refused(&self) -> bool {
        let reading = self.case.input.reading;
        matches!(reading, Some(Err(refusal)) if refusal.number != 201)
    }

    fn bodies(&self) -> impl Iterator<Item = &[u8]> {
        self.case
            .input
            .tray
            .chunks_exact(96)
            .map(|record| &record[2..])
    }

    pub fn accepted_bodies(&self) -> Vec<&[u8]> {
        self.bodies().filter(|_| self.accepted()).collect()
    }

    pub fn individuals(&self) -> Vec<&[u8]> {
        self.bodies().filter(|body| body[0] == b'6').collect()
    }

    pub fn batches(&self) -> usize {
        self.bodies().filter(|body| body[0] == b'5').count()
    }

    /// The tray record that is 207.
    pub fn bad_record(&self) -> Vec<&[u8]> {
        let is_of_record = self.refused(207) && self.has_lengths();
        let mut records = self.case.input.tray.chunks_exact(96);
        let record = records.nth(self.place()).filter(|_| is_of_record);
        record.into_iter().collect()
    }

    /// The record behind the header body at which the reading refuses; of a control only its type.
    pub fn refused_record(&self) -> Vec<&[u8]> {
        if self.place() == 0 || !self.refused_by_reading() {
            return Vec::new();
        }
        let (mut file, mut batches) = (vec![self.case.input.header.as_slice()], 0);
        for body in self.bodies() {
            if body[0] == b'5' {
                file.extend((batches > 0).then_some(b"8".as_slice()));
                batches += 1;
            }
            file.push(body);
        }
        file.extend((batches > 0).then_some(b"8".as_slice()));
        file.push(b"9");
        vec![file[self.place()]]
    }

    pub fn refused_individual(&self) -> Vec<&[u8]> {
        let record = self.refused_record().into_iter();
        record.filter(|record| record[0] == b'6').collect()
    }
}

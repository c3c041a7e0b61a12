//! A file in the making: its records, and its controls computed anew.

use crate::reading::RECORD;
use crate::Rules;

pub type Record = [u8; RECORD];

#[derive(Clone)]
pub struct Draft {
    pub rules: Rules,
    pub records: Vec<Record>,
}

impl Draft {
    pub fn bytes(&self) -> Vec<u8> {
        self.records.concat()
    }

    pub fn places(&self, wanted: impl Fn(&Record) -> bool) -> Vec<usize> {
        (0..self.records.len())
            .filter(|&place| wanted(&self.records[place]))
            .collect()
    }

    /// The place of the last record of this type before `place`.
    pub fn last_before(&self, place: usize, kind: u8) -> Option<usize> {
        (0..place)
            .rev()
            .find(|&place| self.records[place][0] == kind)
    }

    /// Writes into each 8 and 9 what it should hold; sums keep their last digits.
    pub fn settle(&mut self) {
        let (mut header, mut batches) = (None, 0);
        let (mut batch, mut file) = (Sums::default(), Sums::default());
        for place in 0..self.records.len() {
            match self.records[place][0] {
                b'5' => (header, batch) = (Some(self.records[place]), Sums::default()),
                b'6' => batch.add(&self.records[place]),
                b'7' => batch.entries += 1,
                b'8' => {
                    batch.write_batch_control(header.as_ref(), &mut self.records[place]);
                    file.merge(&batch);
                    (header, batch, batches) = (None, Sums::default(), batches + 1);
                }
                b'9' => file.write_file_control(batches, place + 1, &mut self.records[place]),
                _ => {}
            }
        }
    }
}

pub fn put(record: &mut [u8], from: usize, text: &[u8]) {
    record[from - 1..from - 1 + text.len()].copy_from_slice(text);
}

/// The number's last digits, as many as the field takes.
pub fn put_number(record: &mut [u8], from: usize, to: usize, value: u64) {
    let mut rest = value;
    for byte in record[from - 1..to].iter_mut().rev() {
        *byte = b'0' + (rest % 10) as u8;
        rest /= 10;
    }
}

/// The number in a field; what is no number counts as nothing.
pub fn get_number(record: &[u8], from: usize, to: usize) -> u64 {
    std::str::from_utf8(&record[from - 1..to])
        .ok()
        .filter(|text| !text.starts_with('+'))
        .and_then(|text| text.parse().ok())
        .unwrap_or(0)
}

#[derive(Default)]
struct Sums {
    entries: u64,
    control: u64,
    debits: u64,
    credits: u64,
}

impl Sums {
    fn add(&mut self, individual: &Record) {
        self.entries += 1;
        self.control += get_number(individual, 4, 11);
        let amount = get_number(individual, 30, 39);
        match &individual[1..3] {
            b"37" | b"36" => self.debits += amount,
            b"32" | b"31" => self.credits += amount,
            _ => {}
        }
    }

    fn merge(&mut self, batch: &Sums) {
        self.entries += batch.entries;
        self.control += batch.control;
        self.debits += batch.debits;
        self.credits += batch.credits;
    }

    fn write_batch_control(&self, header: Option<&Record>, control: &mut Record) {
        if let Some(header) = header {
            put(control, 2, &header[1..4]);
            put(control, 45, &header[40..50]);
            put(control, 80, &header[79..94]);
        }
        put_number(control, 5, 10, self.entries);
        put_number(control, 11, 20, self.control);
        put_number(control, 21, 32, self.debits);
        put_number(control, 33, 44, self.credits);
    }

    fn write_file_control(&self, batches: u64, records: usize, control: &mut Record) {
        put_number(control, 2, 7, batches);
        put_number(control, 8, 13, (records as u64).div_ceil(10));
        put_number(control, 14, 21, self.entries);
        put_number(control, 22, 31, self.control);
        put_number(control, 32, 43, self.debits);
        put_number(control, 44, 55, self.credits);
    }
}

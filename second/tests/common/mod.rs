//! Small files written by hand, position by position.

// Each test file takes its part of these.
#![allow(dead_code)]

pub mod companies;
pub mod extracts;
pub mod lending;
pub mod trays;

use second::{read, Currency, Refusal, Rules};

pub type Record = [u8; 94];

/// A record from its texts, each with the position where it begins.
pub fn record(texts: &[(usize, &str)]) -> Record {
    let mut record = [b' '; 94];
    for (from, text) in texts {
        put(&mut record, *from, text);
    }
    record
}

pub fn rules(currency: Currency) -> Rules {
    Rules {
        date: 240_229,
        currency,
        roster: [true; 500],
    }
}

pub fn header(origin: &str) -> Record {
    record(&[
        (1, "101 000000010 "),
        (15, origin),
        (23, "0240229"),
        (34, "A094101"),
    ])
}

pub fn batch_header(sender: &str, number: &str) -> Record {
    record(&[
        (1, "5200ACME"),
        (41, "3012345678PPDSEGURO"),
        (70, "240301"),
        (79, "9"),
        (80, sender),
        (88, number),
    ])
}

/// `information` is 77-79: transaction and flag.
pub fn individual(
    code: &str,
    destination: &str,
    amount: &str,
    information: &str,
    counter: &str,
) -> Record {
    record(&[
        (1, "6"),
        (2, code),
        (4, destination),
        (12, "000000000000000000"),
        (30, amount),
        (40, "FACTURA 1"),
        (55, "CLIENTE 1"),
        (77, information),
        (80, counter),
    ])
}

/// `sums` is 5-44: entries, control total, debits, credits.
pub fn batch_control(sums: &str, sender: &str, number: &str) -> Record {
    record(&[
        (1, "8200"),
        (5, sums),
        (45, "3012345678"),
        (80, sender),
        (88, number),
    ])
}

pub fn file_control(sums: &str) -> Record {
    record(&[(1, "9"), (2, sums)])
}

const NO_SUMS: &str = "000000000001000000000000000000000000000000000000000000";

/// Header and control only.
pub fn empty_file(origin: &str) -> Vec<u8> {
    [header(origin), file_control(NO_SUMS)].concat()
}

/// So many orders of one cent, numbered from 1.
pub fn orders(sender: &str, destination: &str, count: usize) -> Vec<Record> {
    let counters = (1..=count).map(|sequence| format!("{sender}{sequence:07}"));
    counters
        .map(|counter| individual("37", destination, "0000000001", "000", &counter))
        .collect()
}

/// Orders whose destinations add up to eleven digits, of which the controls keep the last ten. The batch's control stands at 1,003.
pub fn destinations_over_ten_digits() -> Vec<Record> {
    let mut records = vec![header("05010001"), batch_header("05010001", "0000001")];
    records.extend(orders("05010001", "09999999", 1_001));
    let sums = "0010010009998999000000001001000000000000";
    records.push(batch_control(sums, "05010001", "0000001"));
    records.push(file_control(&format!("00000100010100{sums}")));
    records
}

/// Case L with another text from this position of a record on.
pub fn changed(place: usize, from: usize, text: &str) -> Vec<Record> {
    let mut records = listing();
    put(&mut records[place], from, text);
    records
}

/// Case L of the listing.
pub fn listing() -> Vec<Record> {
    vec![
        header("04010001"),
        batch_header("04010001", "0000001"),
        individual("37", "04020001", "0000012500", "000", "040100010000001"),
        individual("37", "04030002", "0000040000", "000", "040100010000002"),
        batch_control(
            "0000020008050003000000052500000000000000",
            "04010001",
            "0000001",
        ),
        batch_header("04030002", "0000002"),
        individual("32", "04010001", "0000007500", "001", "040300020000003"),
        record(&[(1, "705"), (84, "0001"), (88, "0000003")]),
        batch_control(
            "0000020004010001000000000000000000007500",
            "04030002",
            "0000002",
        ),
        file_control("000002000001000000040012060004000000052500000000007500"),
    ]
}

pub fn answer(rules: &Rules, records: &[Record]) -> Result<usize, Refusal> {
    read(rules, &records.concat())
}

pub fn refused(number: u16, place: usize) -> Result<usize, Refusal> {
    Err(Refusal { number, place })
}

pub fn put(record: &mut [u8], from: usize, text: &str) {
    record[from - 1..from - 1 + text.len()].copy_from_slice(text.as_bytes());
}

/// One batch with one individual record and its additional, presented by `origin` as `identifier`.
pub struct Single<'a> {
    pub origin: &'a str,
    pub identifier: &'a str,
    pub sender: &'a str,
    pub code: &'a str,
    pub destination: &'a str,
    pub amount: u64,
}

/// A rejection between two entities in dollars.
pub const IN_DOLLARS: Single = Single {
    origin: "05020001",
    identifier: "A",
    sender: "05020001",
    code: "36",
    destination: "09990001",
    amount: 9_999_999_999,
};

impl Single<'_> {
    pub fn records(&self) -> Vec<Record> {
        let counter = format!("{}0000001", self.sender);
        let amount = format!("{:010}", self.amount);
        let (debits, credits) = match self.code {
            "37" | "36" => (self.amount, 0),
            _ => (0, self.amount),
        };
        let sums = format!("00{}{debits:012}{credits:012}", self.destination);
        let mut header = header(self.origin);
        put(&mut header, 34, self.identifier);
        vec![
            header,
            batch_header(self.sender, "0000001"),
            individual(self.code, self.destination, &amount, "001", &counter),
            self.additional(&counter),
            batch_control(&format!("000002{sums}"), self.sender, "0000001"),
            file_control(&format!("00000100000100000002{sums}")),
        ]
    }

    fn additional(&self, counter: &str) -> Record {
        match self.code {
            "36" | "31" => record(&[
                (1, "799R02"),
                (7, "040200010000009"),
                (28, "00000000"),
                (80, counter),
            ]),
            _ => record(&[(1, "705"), (84, "0001"), (88, &counter[8..])]),
        }
    }

    pub fn file(&self) -> Vec<u8> {
        self.records().concat()
    }
}

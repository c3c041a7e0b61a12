//! A company's file of two details, position by position from 004's table, and its tray.

use super::lending;
use super::lending::lent;
use second::{company, Currency, Written};

pub type Line = [u8; 250];

pub const TRAY: [&str; 3] = [
    "LO5200EMPRESA UNO                         3050001091PPDALQUILERES      250630   1040100010000000",
    "IN637028509990000123456789012340000012500RECIBO 0001    PEREZ JUAN            000040100010000000",
    "IN637040100010000000000000000000000040000#2             _                     000040100010000000",
];

pub fn put(line: &mut [u8], from: usize, text: &str) {
    line[from - 1..from - 1 + text.len()].copy_from_slice(text.as_bytes());
}

/// A record from its texts, each with the position where it begins.
pub fn record(texts: &[(usize, &str)]) -> Line {
    let mut line = [b' '; 250];
    for (from, text) in texts {
        put(&mut line, *from, text);
    }
    line
}

pub fn lo() -> Vec<u8> {
    TRAY[0].as_bytes()[2..].to_vec()
}

/// The LO body with another text from this position on.
pub fn lo_with(from: usize, text: &str) -> Vec<u8> {
    let mut lo = lo();
    put(&mut lo, from, text);
    lo
}

pub fn records() -> Vec<Line> {
    vec![
        record(&[
            (1, "D30500010912"),
            (16, "SEGUROS"),
            (26, "30062025"),
            (34, "28509990"),
            (42, "000"),
            (45, "12345678901234"),
            (59, "PEREZ JUAN"),
            (81, "30062025"),
            (89, "RECIBO 0001"),
            (104, "0000012500"),
            (114, "80"),
            (116, "15072025"),
            (124, "0000013000"),
        ]),
        record(&[
            (1, "D30500010912"),
            (26, "30062025"),
            (34, "40100017"),
            (45, "00000000000000"),
            (59, "_"),
            (89, "#2"),
            (104, "0000040000"),
            (114, "80"),
        ]),
        closing(2, "0000052500"),
    ]
}

pub fn closing(details: usize, sum: &str) -> Line {
    let counts = format!("T{details:010}{details:07}0000000");
    record(&[(1, &counts), (26, "01072025"), (104, sum)])
}

pub fn file() -> Vec<u8> {
    records().concat()
}

/// The same records for a caller of this currency.
pub fn in_currency(currency: Currency) -> Vec<Line> {
    let mut records = records();
    if currency == Currency::Dollars {
        put(&mut records[0], 114, "82");
        put(&mut records[1], 114, "82");
    }
    records
}

/// The file with another text from this position of a record on.
pub fn with(place: usize, from: usize, text: &str) -> Vec<u8> {
    let mut records = records();
    put(&mut records[place], from, text);
    records.concat()
}

/// The file with both details due on this date.
pub fn due(date: &str) -> Vec<u8> {
    let mut records = records();
    put(&mut records[0], 26, date);
    put(&mut records[1], 26, date);
    records.concat()
}

pub fn makes(currency: Currency, lo: &[u8], file: &[u8], tray: &str) {
    makes_bytes(currency, lo, file, tray.as_bytes());
}

pub fn makes_bytes(currency: Currency, lo: &[u8], file: &[u8], tray: &[u8]) {
    lending::writes(tray, |out| company(currency, lo, file, out));
}

/// Accepted, with a tray of so many bytes.
pub fn accepts(currency: Currency, lo: &[u8], file: &[u8], length: usize) {
    let left = Written::by(&lent(length), |out| company(currency, lo, file, out));
    assert_eq!(left.answer, Ok(length));
}

/// With room enough and with none, and nothing is written.
pub fn refuses(currency: Currency, lo: &[u8], file: &[u8], number: u16, place: usize) {
    stays(currency, lo, file, 0, number, place);
    stays(currency, lo, file, file.len(), number, place);
}

pub fn stays(currency: Currency, lo: &[u8], file: &[u8], room: usize, number: u16, place: usize) {
    lending::refuses(room, number, place, |out| company(currency, lo, file, out));
}

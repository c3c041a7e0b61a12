//! Case L as a file and as its tray, and what is asked of building and stripping.

use super::lending;
use second::{build, strip, Currency, Rules, Session};

pub const FILE: [&str; 10] = [
    "101 999900010 0401000102506301230A094101CAMARA                 BANCO 401                      ",
    "5200EMPRESA UNO                         3050001091PPDALQUILERES      250630   1040100010000001",
    "637040200010000000000000000000000012500RECIBO 0001    PEREZ JUAN            000040100010000001",
    "637040300020000000000000000000000040000RECIBO 0001    PEREZ JUAN            000040100010000002",
    "820000000200080500030000000525000000000000003050001091                         040100010000001",
    "5200EMPRESA UNO                         3050001091PPDALQUILERES      250630   1040300020000002",
    "632040100010000000000000000000000007500RECIBO 0001    PEREZ JUAN            001040300020000003",
    "705PAGO                                                                            00010000003",
    "820000000200040100010000000000000000000075003050001091                         040300020000002",
    "9000002000001000000040012060004000000052500000000007500                                       ",
];

pub const TRAY: [&str; 6] = [
    "LO5200EMPRESA UNO                         3050001091PPDALQUILERES      250630   1040100010000000",
    "IN637040200010000000000000000000000012500RECIBO 0001    PEREZ JUAN            000040100010000000",
    "IN637040300020000000000000000000000040000RECIBO 0001    PEREZ JUAN            000040100010000000",
    "LO5200EMPRESA UNO                         3050001091PPDALQUILERES      250630   1040300020000000",
    "IN632040100010000000000000000000000007500RECIBO 0001    PEREZ JUAN            001040300020000000",
    "AD705PAGO                                                                            00010000000",
];

pub const NOTHING: &str =
    "9000000000001000000000000000000000000000000000000000000                                       ";

pub type Lines = Vec<Vec<u8>>;

pub fn tray() -> Lines {
    TRAY.map(|line| line.as_bytes().to_vec()).to_vec()
}

pub fn file() -> Lines {
    FILE.map(|line| line.as_bytes().to_vec()).to_vec()
}

pub fn header() -> &'static [u8] {
    FILE[0].as_bytes()
}

pub fn put_text(line: &mut [u8], index: usize, text: &str) {
    line[index..index + text.len()].copy_from_slice(text.as_bytes());
}

/// The tray with other bytes from this one of a record on.
pub fn tray_with(place: usize, index: usize, bytes: &[u8]) -> Vec<u8> {
    let mut tray = tray();
    tray[place][index..index + bytes.len()].copy_from_slice(bytes);
    tray.concat()
}

pub fn listed() -> Rules {
    let (answer, session) = Session::open(250_630, Currency::Pesos, &[401, 402, 403]);
    assert_eq!(answer, Ok(()));
    session.rules().clone()
}

pub fn builds(rules: &Rules, header: &[u8], tray: &[u8], expected: &[u8]) {
    lending::writes(expected, |out| build(rules, header, tray, out));
}

/// A refusal before the reading leaves the buffer as it was.
pub fn stays(header: &[u8], tray: &[u8], room: usize, number: u16, place: usize) {
    let job = |out: &mut [u8]| build(&listed(), header, tray, out);
    lending::refuses(room, number, place, job);
}

/// A refusal by the reading leaves spaces where the file would have stood.
pub fn blanks(rules: &Rules, header: &[u8], tray: &[u8], length: usize, number: u16, place: usize) {
    let job = |out: &mut [u8]| build(rules, header, tray, out);
    lending::blanks(length, number, place, job);
}

pub fn strips(rules: &Rules, file: &[u8], expected: &[u8]) {
    lending::writes(expected, |out| strip(rules, file, out));
}

pub fn no_strip(rules: &Rules, file: &[u8], room: usize, number: u16, place: usize) {
    lending::refuses(room, number, place, |out| strip(rules, file, out));
}

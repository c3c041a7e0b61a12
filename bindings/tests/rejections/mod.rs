//! Rejections, and a motive list.

use crate::common::{tray_of, L};
use desk::{TEXT, TRAY_RECORD};

/// The line of each R number is that number, in all its bytes.
pub fn motives() -> Vec<u8> {
    (0..100).flat_map(|number| [number; TEXT]).collect()
}

/// Two records of a tray, the individual and its additional: case L's first debit comes back to an account of this destination.
pub fn rejection(code: &str, destination: &str, number: u8, text: &str) -> Vec<u8> {
    let mut individual = tray_of(L)[TRAY_RECORD..][..TRAY_RECORD].to_vec();
    individual[3..5].copy_from_slice(code.as_bytes());
    individual[5..13].copy_from_slice(destination.as_bytes());
    individual[80] = b'1';
    let (original, sender, tail) = (1, "04010001", 0);
    let additional =
        format!("AD799R{number:02}{original:015}      {sender}{text:<TEXT$}{sender}{tail:07}");
    [individual, additional.into()].concat()
}

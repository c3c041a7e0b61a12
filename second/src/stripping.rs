//! Stripping: the tray of a good file.

use crate::fields::field_mut;
use crate::reading::RECORD;
use crate::refusal::BUFFER;
use crate::tray::{mark, split, NO_COUNTER, TRAY_RECORD};
use crate::{read, Refusal, Rules};

/// The number of bytes written. Those behind them stay, and all of them when it is refused.
pub fn strip(rules: &Rules, file: &[u8], out: &mut [u8]) -> Result<usize, Refusal> {
    read(rules, file)?;
    let length = marked(file).count() * TRAY_RECORD;
    let lent = out.get_mut(..length);
    let lent = lent.ok_or(Refusal::of_no_record(BUFFER))?;
    for (place, (mark, record)) in lent.chunks_exact_mut(TRAY_RECORD).zip(marked(file)) {
        let (marking, body) = split(place);
        marking.copy_from_slice(mark);
        body.copy_from_slice(record);
        field_mut(body, 88, 94).copy_from_slice(NO_COUNTER);
    }
    Ok(length)
}

/// The records that a tray holds, with their marks.
fn marked(file: &[u8]) -> impl Iterator<Item = (&'static [u8; 2], &[u8])> {
    let records = file.chunks_exact(RECORD);
    records.filter_map(|record| Some((mark(record[0])?, record)))
}

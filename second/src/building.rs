//! Building: a file from a header body and a tray.

use crate::reading::{MOST_RECORDS, RECORD};
use crate::refusal::{BUFFER, LENGTH};
use crate::tray::{bodies, check_form};
use crate::writing::{put_counter, Writer};
use crate::{read, Refusal, Rules};

/// The number of bytes written. Those behind them stay, and all of them when it is refused before the reading.
pub fn build(rules: &Rules, header: &[u8], tray: &[u8], out: &mut [u8]) -> Result<usize, Refusal> {
    check_form(header, tray)?;
    let records = records(tray);
    if records > MOST_RECORDS {
        return Err(Refusal::of_no_record(LENGTH));
    }
    let length = records * RECORD;
    let lent = out.get_mut(..length);
    let lent = lent.ok_or(Refusal::of_no_record(BUFFER))?;
    write(header, tray, lent);
    if let Err(refusal) = read(rules, lent) {
        lent.fill(b' ');
        return Err(refusal);
    }
    Ok(length)
}

/// How many records the built file has: its header, a control for each batch header, and the file control besides the tray's.
fn records(tray: &[u8]) -> usize {
    let of_body = |body: &[u8]| if body[0] == b'5' { 2 } else { 1 };
    2 + bodies(tray).map(of_body).sum::<usize>()
}

/// The file as it will be read, good or not.
fn write(header: &[u8], tray: &[u8], out: &mut [u8]) {
    let mut writer = Writer::new(out);
    let mut individuals = 0;
    writer.copy(header);
    for body in bodies(tray) {
        match body[0] {
            b'5' => {
                writer.close_batch();
                writer.open_batch(body);
            }
            b'6' => {
                individuals += 1;
                put_counter(writer.individual(body), individuals);
            }
            // Zero where no individual record came before it.
            _ => put_counter(writer.additional(body), individuals),
        }
    }
    writer.close_batch();
    writer.close_file();
}

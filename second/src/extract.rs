//! Extracting: what a file holds for one entity, as a file of its own.

use crate::fields::{field, field_mut};
use crate::reading::RECORD;
use crate::refusal::{BUFFER, ENTITY_NUMBER};
use crate::rules::Digits;
use crate::writing::Writer;
use crate::{read, Refusal, Session};

impl Session {
    /// The number of bytes written. Those behind them stay, and all of them when it is refused.
    pub fn extract(&self, entity: u64, file: &[u8], out: &mut [u8]) -> Result<usize, Refusal> {
        let refusal = Refusal::of_no_record;
        let digits = self.rules().digits(entity);
        let digits = digits.ok_or(refusal(ENTITY_NUMBER))?;
        read(self.rules(), file)?;
        // Counted before anything is written: a buffer too short must stay as it is.
        let length = length(file, digits);
        let lent = out.get_mut(..length).ok_or(refusal(BUFFER))?;
        let mut extract = Extract::new(lent);
        for record in kept(file, digits) {
            extract.take(record, digits);
        }
        Ok(length)
    }
}

/// A good file without the individual records to others and their additionals.
fn kept(file: &[u8], entity: Digits) -> impl Iterator<Item = &[u8]> {
    let mut addressed = false;
    file.chunks_exact(RECORD)
        .filter(move |record| match record[0] {
            b'6' => {
                addressed = field(record, 4, 7) == entity;
                addressed
            }
            b'7' => addressed,
            _ => true,
        })
}

/// The extract's length in bytes.
fn length(file: &[u8], entity: Digits) -> usize {
    let (mut records, mut entries) = (2, 0);
    for record in kept(file, entity) {
        match record[0] {
            b'5' => entries = 0,
            b'6' | b'7' => entries += 1,
            b'8' if entries > 0 => records += entries + 2,
            _ => {}
        }
    }
    records * RECORD
}

/// What of the extract is written, and what is still needed for the rest.
struct Extract<'a> {
    writer: Writer<'a>,
    /// A batch header of the file, as long as no record of its batch was kept.
    waiting: Option<&'a [u8]>,
}

impl<'a> Extract<'a> {
    fn new(out: &'a mut [u8]) -> Self {
        Extract {
            writer: Writer::new(out),
            waiting: None,
        }
    }

    fn take(&mut self, record: &'a [u8], entity: Digits) {
        match record[0] {
            b'1' => self.write_header(record, entity),
            b'5' => self.waiting = Some(record),
            b'6' => self.write_individual(record),
            b'7' => {
                self.writer.additional(record);
            }
            b'8' if self.waiting.is_none() => self.writer.close_batch(),
            b'9' => self.writer.close_file(),
            _ => {}
        }
    }

    /// From the house to the entity: destination and origin change places, and so do their names.
    fn write_header(&mut self, record: &[u8], entity: Digits) {
        let header = self.writer.copy(record);
        field_mut(header, 4, 13).copy_from_slice(b" 000000000");
        field_mut(header, 5, 8).copy_from_slice(&entity);
        field_mut(header, 14, 23).copy_from_slice(field(record, 4, 13));
        field_mut(header, 41, 63).copy_from_slice(field(record, 64, 86));
        field_mut(header, 64, 86).copy_from_slice(field(record, 41, 63));
    }

    fn write_individual(&mut self, record: &[u8]) {
        if let Some(header) = self.waiting.take() {
            // Numbered anew: the old number would tell how many batches went elsewhere.
            self.writer.open_batch(header);
        }
        self.writer.individual(record);
    }
}

//! What the jobs that write share: records one behind the other, numbered batches, recomputed controls.

use crate::controls::{write_batch_control, write_file_control, Sums};
use crate::fields::{field_mut, write_number};
use crate::reading::RECORD;
use crate::Refusal;
use std::slice::ChunksExactMut;

/// Everything that extracting, building or stripping leaves behind.
#[derive(Clone, Debug, PartialEq, Eq)]
pub struct Written {
    /// The number of bytes written.
    pub answer: Result<usize, Refusal>,
    /// All bytes that were lent, as they are afterwards.
    pub buffer: Vec<u8>,
}

impl Written {
    /// What a job leaves behind when it is lent a copy of this buffer.
    pub fn by(buffer: &[u8], job: impl FnOnce(&mut [u8]) -> Result<usize, Refusal>) -> Self {
        let mut buffer = buffer.to_vec();
        let answer = job(&mut buffer);
        Written { answer, buffer }
    }
}

/// What of a file is written, and what is still needed for the rest.
pub struct Writer<'a> {
    room: ChunksExactMut<'a, u8>,
    records: u64,
    batches: u64,
    /// The last batch header written, with its new number; empty before the first.
    header: &'a [u8],
    batch: Sums,
    file: Sums,
}

impl<'a> Writer<'a> {
    /// The buffer must take exactly what is to be written.
    pub fn new(out: &'a mut [u8]) -> Self {
        Writer {
            room: out.chunks_exact_mut(RECORD),
            records: 0,
            batches: 0,
            header: &[],
            batch: Sums::default(),
            file: Sums::default(),
        }
    }

    /// The next record's place in the buffer.
    fn place(&mut self) -> &'a mut [u8] {
        self.records += 1;
        self.room.next().expect("the file's length was counted")
    }

    pub fn copy(&mut self, record: &[u8]) -> &'a mut [u8] {
        let place = self.place();
        place.copy_from_slice(record);
        place
    }

    /// Batches are numbered 1, 2, .., whatever stood there before.
    pub fn open_batch(&mut self, record: &[u8]) {
        self.batches += 1;
        self.batch = Sums::default();
        let header = self.copy(record);
        put_counter(header, self.batches);
        self.header = header;
    }

    pub fn individual(&mut self, record: &[u8]) -> &'a mut [u8] {
        self.batch.add_record(record);
        self.copy(record)
    }

    pub fn additional(&mut self, record: &[u8]) -> &'a mut [u8] {
        self.batch.add_additional();
        self.copy(record)
    }

    /// The control of the batch written last, where there is one.
    pub fn close_batch(&mut self) {
        if self.header.is_empty() {
            return;
        }
        let place = self.place();
        write_batch_control(self.header, &self.batch, place);
        self.file.add_batch(&self.batch);
    }

    pub fn close_file(&mut self) {
        let place = self.place();
        write_file_control(self.batches, self.records, &self.file, place);
    }
}

/// Positions 88-94: the number of a batch or of an individual record.
pub fn put_counter(record: &mut [u8], number: u64) {
    write_number(field_mut(record, 88, 94), number);
}

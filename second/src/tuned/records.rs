//! The records of a file one after another.

use super::words::Record;
use crate::refusal::FORMAT;

/// From the record that is being judged on.
#[derive(Clone, Copy)]
pub struct Records<'a>(pub &'a [Record]);

impl<'a> Records<'a> {
    /// The record to be judged. Where there is none the file has ended too early.
    #[inline(always)]
    pub fn record(&self) -> Result<&'a Record, u16> {
        self.0.first().ok_or(FORMAT)
    }

    /// On to the next, which may well be wanting.
    #[inline(always)]
    pub fn advance(&mut self) {
        self.0 = self.0.get(1..).unwrap_or_default();
    }

    pub fn left(&self) -> usize {
        self.0.len()
    }
}

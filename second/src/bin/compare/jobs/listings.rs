//! Both listings of generated standard inputs, byte for byte.

use super::job::{Job, Seen};
use super::showing::{both_texts, show_and_keep};
use second::generate::listing::{generate_listing, ListingCase};
use second::{listing, proved};

impl Job for ListingCase {
    type Answer = Vec<u8>;
    const JOB: &'static str = "listings";
    const CASE: &'static str = "listing";
    const GENERATE: fn(u64, u64) -> Self = generate_listing;

    fn by_second(&self) -> Vec<u8> {
        listing(&self.input)
    }

    fn by_proved(&self) -> Result<Vec<u8>, String> {
        proved::listing(&self.input)
    }

    fn shows(_: &Seen<ListingCase>, name: &str) -> u64 {
        u64::from(name == "listings")
    }

    fn show(&self, ours: &Vec<u8>, theirs: &Result<Vec<u8>, String>, name: &str) {
        println!("{}, meant {:?}", self.family, self.meant);
        println!("{}", both_texts(ours, theirs));
        show_and_keep(&self.input, 94, name);
    }
}

impl Seen<ListingCase> {
    pub fn is_refused(&self) -> bool {
        self.answer.starts_with(b"REFUSED")
    }

    /// Accepted, so that the origin is one of either currency.
    pub fn is_in_dollars(&self) -> bool {
        &self.case.input[14..18] > b"0500".as_slice()
    }

    pub fn input_length(&self) -> usize {
        self.case.input.len()
    }

    /// Those between the heading and the sum.
    pub fn lines(&self) -> usize {
        self.answer.split(|&byte| byte == b'\n').count() - 3
    }
}

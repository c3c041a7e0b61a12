//! What the jobs that write into a lent buffer share: the answer and every byte of the buffer are compared.

use super::job::{Job, Seen};
use super::readings::is_named;
use super::showing::{show_and_keep, show_bytes};
use second::generate::lending::{Input, Lending};
use second::{proved, Currency, Written};

/// What such a job is done on.
pub trait Writing: Input + Sized + 'static {
    const JOB: &'static str;
    const CASE: &'static str;
    /// Bytes of a record of what it writes.
    const RECORD: usize;
    /// Its own refusals, which are not the reading's.
    const OWN: &'static [u16];
    /// By seed and number.
    const GENERATE: fn(u64, u64) -> Lending<Self>;

    fn by_proved(case: &Lending<Self>) -> Result<Written, String>;
    /// What must hold besides of an answer and a buffer that are those meant.
    fn check(case: &Lending<Self>, number: u64, left: &Written) -> Result<(), String>;
    /// Bytes of the file that is read, or would be.
    fn file_length(&self) -> usize;
    /// Each part of it: its name, the bytes of its records, and all its bytes.
    fn parts(&self) -> Vec<(String, usize, &[u8])>;
}

impl<W: Writing> Job for Lending<W> {
    type Answer = Written;
    const JOB: &'static str = W::JOB;
    const CASE: &'static str = W::CASE;
    const GENERATE: fn(u64, u64) -> Self = W::GENERATE;

    fn by_second(&self) -> Written {
        match proved::not_opened(&self.opening) {
            Some(refusal) => Written::by(&self.buffer, |_| Err(refusal)),
            None => self.run(),
        }
    }

    fn by_proved(&self) -> Result<Written, String> {
        W::by_proved(self)
    }

    fn check(&self, number: u64, left: &Written) -> Result<(), String> {
        if !was_opened(left) {
            // What the second program does in the session of nobody is still what was meant.
            return Lending::check(self, &self.run());
        }
        Lending::check(self, left)?;
        W::check(self, number, left)
    }

    fn shows(seen: &Seen<Self>, name: &str) -> u64 {
        let named = name == W::JOB || name == seen.case.family;
        u64::from(named || seen.is_named(name))
    }

    fn show(&self, ours: &Written, theirs: &Result<Written, String>, name: &str) {
        println!("{}, meant {:?}", self.family, self.meant);
        println!("{:?}", self.opening);
        println!("buffer of {} bytes", self.buffer.len());
        println!("second: {:?}", ours.answer);
        match theirs {
            Ok(theirs) => {
                println!("proved: {:?}", theirs.answer);
                show_bytes(W::RECORD, &self.buffer, &ours.buffer, &theirs.buffer);
            }
            Err(complaint) => println!("proved: {complaint}"),
        }
        for (part, record, bytes) in self.input.parts() {
            println!("{part}:");
            show_and_keep(bytes, record, &format!("{name}-{part}"));
        }
    }
}

fn was_opened(left: &Written) -> bool {
    !left
        .answer
        .is_err_and(|refusal| refusal.place == proved::OPENING)
}

impl<W: Writing> Seen<Lending<W>> {
    pub fn accepted(&self) -> bool {
        self.answer.answer.is_ok()
    }

    /// By the job itself, in a session that was opened.
    pub fn refused(&self, number: u16) -> bool {
        let answer = self.answer.answer;
        self.opened() && answer.is_err_and(|refusal| refusal.number == number)
    }

    pub fn refused_by_reading(&self) -> bool {
        let answer = self.answer.answer;
        self.opened() && answer.is_err_and(|refusal| !W::OWN.contains(&refusal.number))
    }

    /// Where it was refused.
    pub fn place(&self) -> usize {
        self.answer.answer.err().map_or(0, |refusal| refusal.place)
    }

    pub fn opened(&self) -> bool {
        was_opened(&self.answer)
    }

    pub fn lent(&self) -> usize {
        self.case.buffer.len()
    }

    pub fn needed(&self) -> usize {
        let counted = |_| self.case.input.needed(&self.case.rules);
        self.answer.answer.unwrap_or_else(counted)
    }

    pub fn is_short(&self) -> bool {
        self.lent() < self.needed()
    }

    /// Whether the file has as many records as a file may have.
    pub fn is_full(&self) -> bool {
        self.case.input.file_length() == 940_000
    }

    /// The names that all these jobs have in common: what became of a case, and how.
    fn is_named(&self, name: &str) -> bool {
        match name.split_once(' ') {
            Some(("accepted", how)) => self.accepted() && self.is_so(how),
            Some(("206", how)) => self.refused(206) && self.is_so(how),
            Some(("spaces", how)) => self.refused_by_reading() && self.is_so(how),
            _ => is_named(self.answer.answer, name),
        }
    }

    fn is_so(&self, how: &str) -> bool {
        let (lent, needed) = (self.lent(), self.needed());
        match how {
            "in pesos" => self.case.rules.currency == Currency::Pesos,
            "in dollars" => self.case.rules.currency == Currency::Dollars,
            "10000 records" | "for 10000 records" => self.is_full(),
            "with no byte lent" => lent == 0,
            "with one byte lent" => lent == 1,
            "with 93 bytes lent" => lent == 93,
            "with 95 bytes lent" => lent == 95,
            "with one byte missing" => lent + 1 == needed,
            "with one record missing" | "with one body missing" => lent + 94 == needed,
            "with one tray record missing" => lent + 96 == needed,
            "into exactly its length" | "into exactly the length" => lent == needed,
            "with one byte over" => lent == needed + 1,
            "with much over" => lent >= needed + 1_000,
            _ => false,
        }
    }
}

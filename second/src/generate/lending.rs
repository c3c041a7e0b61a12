//! Cases of the jobs that write into a lent buffer: a session, what the job is done on, and a buffer full of something.

use super::case::{refused, Answer};
use super::opening::Opened;
use super::random::Random;
use super::room::filled;
use crate::day::Opening;
use crate::{Refusal, Rules, Session, Written};

/// What such a job is done on.
pub trait Input {
    /// The job as the second program does it.
    fn run(&self, session: &Session, lent: &mut [u8]) -> Result<usize, Refusal>;

    /// How many bytes there are to write, whatever may be refused.
    fn needed(&self, rules: &Rules) -> usize;

    /// All that should be written when it is accepted, made without the second program's doing of the job.
    fn output(&self, rules: &Rules) -> Vec<u8>;

    /// What is written all the same when it is refused so.
    fn output_of_refusal(&self, _: Refusal) -> Vec<u8> {
        Vec::new()
    }
}

/// One case, with the answer that was meant where it is known.
pub struct Lending<I> {
    pub family: &'static str,
    pub opening: Opening,
    /// What the session goes by, also after a refused opening.
    pub rules: Rules,
    pub input: I,
    /// What the lent buffer holds before.
    pub buffer: Vec<u8>,
    pub meant: Answer,
}

impl<I: Input> Lending<I> {
    /// Fills so much room at random.
    pub fn new(
        random: &mut Random,
        family: &'static str,
        opened: Opened,
        input: I,
        room: usize,
        meant: Answer,
    ) -> Self {
        Lending {
            family,
            opening: opened.opening,
            rules: opened.rules,
            input,
            buffer: filled(random, room),
            meant,
        }
    }

    /// What it leaves behind in the second program.
    pub fn run(&self) -> Written {
        let (_, session) = self.opening.open();
        Written::by(&self.buffer, |lent| self.input.run(&session, lent))
    }

    /// What must hold of an answer and of every byte of the buffer, whichever program has left them.
    pub fn check(&self, left: &Written) -> Result<(), String> {
        if self.meant.is_some_and(|meant| meant != left.answer) {
            return Err(format!("{:?} was meant", self.meant));
        }
        let output = match left.answer {
            Ok(_) => self.input.output(&self.rules),
            Err(refusal) => self.input.output_of_refusal(refusal),
        };
        if let Ok(length) = left.answer {
            let needed = self.input.needed(&self.rules);
            if length != needed || length != output.len() {
                return Err(format!("wrote {length} bytes of {needed}"));
            }
        }
        let parts = left.buffer.split_at_checked(output.len());
        let (written, rest) = parts.ok_or("wrote more than was lent")?;
        if rest != &self.buffer[output.len()..] {
            return Err("the rest of the buffer did not stay".into());
        }
        if written != output {
            return Err("not the bytes that were meant".into());
        }
        Ok(())
    }
}

/// The reading's refusals, then 206.
pub fn written_after(reading: Answer, length: usize, room: usize) -> Answer {
    match reading? {
        Err(refusal) => Some(Err(refusal)),
        Ok(_) if length > room => refused(206, 0),
        Ok(_) => Some(Ok(length)),
    }
}

//! What the comparison must know of a job.

/// What a job is done on.
pub trait Job: Sized + 'static {
    type Answer: PartialEq;
    /// What the job is called, and what one of its cases is.
    const JOB: &'static str;
    const CASE: &'static str;
    /// By seed and number.
    const GENERATE: fn(u64, u64) -> Self;

    fn by_second(&self) -> Self::Answer;
    fn by_proved(&self) -> Result<Self::Answer, String>;

    /// What else must hold of an answer that both have given.
    fn check(&self, _number: u64, _answer: &Self::Answer) -> Result<(), String> {
        Ok(())
    }

    /// How often a case shows what this name says, for rows of the table that only have a name.
    fn shows(seen: &Seen<Self>, name: &str) -> u64;

    /// Shows both answers and the case, and keeps that in files of this name.
    fn show(&self, ours: &Self::Answer, theirs: &Result<Self::Answer, String>, name: &str);
}

/// A case, and the answer that both programs have given.
pub struct Seen<J: Job> {
    pub number: u64,
    pub case: J,
    pub answer: J::Answer,
}

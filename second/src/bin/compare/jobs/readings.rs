//! Both readings on generated files, and the tuned ones beside them.

use super::counters::{fall_or_repeat, Refused};
use super::job::{Job, Seen};
use super::showing::show_and_keep;
use second::day::Opening;
use second::generate::counters::FAMILIES;
use second::generate::{generate, Case};
use second::{proved, read, read_swept, tuned, Refusal};

impl Job for Case {
    type Answer = Result<usize, Refusal>;
    const JOB: &'static str = "readings";
    const CASE: &'static str = "file";
    const GENERATE: fn(u64, u64) -> Self = generate;

    fn by_second(&self) -> Self::Answer {
        match proved::not_opened(&Opening::of(&self.rules)) {
            Some(refusal) => Err(refusal),
            None => read(&self.rules, &self.file),
        }
    }

    fn by_proved(&self) -> Result<Self::Answer, String> {
        Ok(proved::read(&Opening::of(&self.rules), &self.file))
    }

    /// The tuned readings know no opening: where that was refused they are held to what the rules alone give.
    fn check(&self, _: u64, answer: &Self::Answer) -> Result<(), String> {
        let ours = match answer {
            Err(Refusal { place, .. }) if *place == proved::OPENING => {
                read(&self.rules, &self.file)
            }
            _ => *answer,
        };
        held("tuned", tuned::read(&self.rules, &self.file), ours)?;
        held("swept", read_swept(&self.rules, &self.file), ours)
    }

    fn shows(seen: &Seen<Case>, name: &str) -> u64 {
        let named = match name {
            "files" => true,
            "of the counters' family" => FAMILIES.contains(&seen.case.family),
            "of several batches with falling or repeated counters" => {
                fall_or_repeat(&seen.case.file)
            }
            _ => is_named(seen.answer, name),
        };
        u64::from(named)
    }

    fn show(&self, ours: &Self::Answer, theirs: &Result<Self::Answer, String>, name: &str) {
        let on_it = (0..500).filter(|&entity| self.rules.roster[entity]);
        println!("date {}, {:?}", self.rules.date, self.rules.currency);
        println!("roster {:?}", on_it.collect::<Vec<usize>>());
        println!("second: {ours:?}");
        println!("proved: {theirs:?}");
        println!("tuned:  {:?}", tuned::read(&self.rules, &self.file));
        println!("meant:  {:?} ({})", self.expected, self.family);
        show_and_keep(&self.file, 94, name);
    }
}

impl Seen<Case> {
    /// The individual record that is refused by 27, where this holds of it.
    pub fn refused_counter<'s>(&'s self, test: fn(&Refused<'s>) -> bool) -> bool {
        let refusal = self.answer.err().filter(|refusal| refusal.number == 27);
        let refused = refusal.and_then(|refusal| Refused::at(&self.case.file, refusal.place));
        refused.as_ref().is_some_and(test)
    }

    pub fn records(&self) -> usize {
        self.case.file.len() / 94
    }
}

/// A reading that decides nothing must say what the straightforward one says.
fn held(
    name: &str,
    said: Result<usize, Refusal>,
    ours: Result<usize, Refusal>,
) -> Result<(), String> {
    match said {
        said if said == ours => Ok(()),
        said => Err(format!(
            "the {name} reading differs: {said:?}, not {ours:?}"
        )),
    }
}

/// "accepted", "openings refused by" a number, or "refused" and a number.
pub fn is_named<T>(answer: Result<T, Refusal>, name: &str) -> bool {
    let Err(Refusal { number, place }) = answer else {
        return name == "accepted";
    };
    let said = match place {
        proved::OPENING => "openings refused by ",
        _ => "refused ",
    };
    name.strip_prefix(said) == Some(&number.to_string())
}

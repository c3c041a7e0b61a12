//! From the tray to the file and back, and the other way round, by both programs.

use second::day::Opening;
use second::generate::built::{built_length, is_as_built};
use second::generate::company::{header_body, CompanyCase};
use second::generate::strip::StripCase;
use second::{build, proved, read, strip, Refusal, Rules, Written};

/// Bytes lent beyond those needed, so that the rest is seen to stay.
const OVER: usize = 7;
const JUNK: u8 = b'#';

/// A built file reads as good, and the tray comes back.
pub fn strips_to_its_tray(
    opening: &Opening,
    rules: &Rules,
    tray: &[u8],
    file: &[u8],
) -> Result<(), String> {
    let good = Ok(file.len() / 94);
    let readings = [read(rules, file), proved::read(opening, file)];
    if readings != [good; 2] {
        return Err(format!("the built file reads as {readings:?}"));
    }
    if !is_as_built(file) {
        return Err("the built file is not numbered as it should be, or not blank".into());
    }
    let room = vec![JUNK; tray.len() + OVER];
    let ours = Written::by(&room, |lent| strip(rules, file, lent));
    let theirs = proved::stripped(opening, file, &room)?;
    let back = agreed("stripping the built file", ours, theirs, tray.len())?;
    let same = back == *tray;
    same.then_some(())
        .ok_or("the tray did not come back".into())
}

/// Most orders of a tray of one LO that builds.
const MOST_ORDERS: usize = 9_996;

/// A tray made of a company's file is built alike by both, and comes back from the file; where the LO body reads, it does build.
pub fn company_builds(case: &CompanyCase, tray: &[u8]) -> Result<(), String> {
    let header = header_body(&case.rules);
    let room = vec![JUNK; built_length(tray) + OVER];
    let ours = Written::by(&room, |lent| build(&case.rules, &header, tray, lent));
    let theirs = proved::built(&case.opening, &header, tray, &room)?;
    if ours != theirs {
        let (ours, theirs) = (ours.answer, theirs.answer);
        return Err(format!("building: second {ours:?}, proved {theirs:?}"));
    }
    let length = 94 * (tray.len() / 96 + 3);
    let refused = |number, place| Err(Refusal { number, place });
    let expected = match tray.len() / 96 - 1 {
        // A 5, then an 8.
        0 => refused(17, 2),
        1..=MOST_ORDERS => Ok(length),
        _ => refused(201, 0),
    };
    if case.input.lo_reads && ours.answer != expected {
        let said = ours.answer;
        return Err(format!("building says {said:?}, {expected:?} was meant"));
    }
    match ours.answer {
        Ok(length) => {
            let file = &ours.buffer[..length];
            strips_to_its_tray(&case.opening, &case.rules, tray, file)
        }
        Err(_) => Ok(()),
    }
}

/// A tray that was stripped builds a file again: the same exactly when that was numbered so, and blank.
pub fn builds_again(case: &StripCase, tray: &[u8]) -> Result<(), String> {
    let file = &case.input.file;
    let header = &file[..94];
    let room = vec![JUNK; file.len() + OVER];
    let ours = Written::by(&room, |lent| build(&case.rules, header, tray, lent));
    let theirs = proved::built(&case.opening, header, tray, &room)?;
    let back = agreed("building again", ours, theirs, file.len())?;
    match (back == *file, is_as_built(file)) {
        (true, false) => Err("the file came back, though it is not as built".into()),
        (false, true) => Err("the file did not come back".into()),
        _ => Ok(()),
    }
}

/// What both have written, when it is of this length and alike.
fn agreed(job: &str, ours: Written, theirs: Written, length: usize) -> Result<Vec<u8>, String> {
    if ours != theirs || ours.answer != Ok(length) {
        let (ours, theirs) = (ours.answer, theirs.answer);
        return Err(format!(
            "{job}: second {ours:?}, proved {theirs:?}, or other bytes"
        ));
    }
    let (written, rest) = ours.buffer.split_at(length);
    let stays = rest.iter().all(|&byte| byte == JUNK);
    stays
        .then(|| written.to_vec())
        .ok_or(format!("{job}: the rest did not stay"))
}

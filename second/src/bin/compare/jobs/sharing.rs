//! What holds of extracts by the paper, whichever program made them.

use super::job::Job;
use second::generate::extract::ExtractCase;
use second::{proved, receive};
use std::collections::BTreeMap;

/// A file that reads as good once its header has an origin again.
pub fn reads_with_its_origin(case: &ExtractCase, extract: &[u8]) -> Result<(), String> {
    let mut file = extract.to_vec();
    file[13..23].copy_from_slice(&case.input.file[13..23]);
    match proved::read(&case.opening, &file) {
        Ok(records) if records * 94 == extract.len() => Ok(()),
        answer => Err(format!("the extract with its origin reads as {answer:?}")),
    }
}

/// Both programs receive it in the session it was made in, whichever has written it: their bytes are the same.
pub fn is_received(case: &ExtractCase, extract: &[u8]) -> Result<(), String> {
    let (entity, good) = (case.input.entity, Ok(extract.len() / 94));
    let ours = receive(&case.rules, entity, extract);
    let theirs = proved::receive(&case.opening, entity, extract);
    if [ours, theirs] == [good; 2] {
        return Ok(());
    }
    Err(format!(
        "the extract for {entity} is received as {ours:?}, {theirs:?}"
    ))
}

/// Every individual record with its additional stands in exactly one entity's extract, and in order.
pub fn shared_out(case: &ExtractCase) -> Result<(), String> {
    let items = items(&case.input.file);
    let places: BTreeMap<&[u8], usize> = items.iter().copied().zip(0..).collect();
    let mut found = vec![0; items.len()];
    for entity in (1..500).filter(|&entity| case.rules.roster[entity as usize]) {
        let extract = extract_for(&case.for_entity(entity))?;
        let mut next = 0;
        for item in self::items(&extract) {
            let place = places.get(item).copied();
            let place = place.ok_or(format!("{entity} got what the file does not hold"))?;
            if place < next {
                return Err(format!("{entity} got item {place} out of order"));
            }
            next = place + 1;
            found[place] += 1;
        }
    }
    match found.iter().position(|&times| times != 1) {
        Some(place) => Err(format!("item {place} handed out {} times", found[place])),
        None => Ok(()),
    }
}

/// By both programs, which must agree.
fn extract_for(case: &ExtractCase) -> Result<Vec<u8>, String> {
    let (ours, theirs) = (case.run(), case.by_proved()?);
    if ours != theirs {
        return Err(format!("the two differ for entity {}", case.input.entity));
    }
    let length = theirs.answer.map_err(|refusal| format!("{refusal:?}"))?;
    is_received(case, &theirs.buffer[..length])?;
    Ok(theirs.buffer[..length].to_vec())
}

/// Each individual record, with its additional where it has one.
fn items(file: &[u8]) -> Vec<&[u8]> {
    let begins = (0..file.len())
        .step_by(94)
        .filter(|&begin| file[begin] == b'6');
    begins
        .map(|begin| match file[begin + 94] {
            b'7' => &file[begin..begin + 188],
            _ => &file[begin..begin + 94],
        })
        .collect()
}

//! Does the calls of a plan on the files of this folder, and prints each with its answer. Usage: reach < PLAN

use desk::{Cell, Currency, Day, Opening, Place, Reason, Refusal};
use std::error::Error;
use std::fs;
use std::io::{self, BufRead, Write};

type Answer = Result<String, Box<dyn Error>>;

/// FNV-1a, in 64 bits.
fn digest(bytes: &[u8]) -> String {
    let number = bytes.iter().fold(0xcbf2_9ce4_8422_2325, |number, &byte| {
        (number ^ u64::from(byte)).wrapping_mul(0x0100_0000_01b3)
    });
    format!("{number:016x}")
}

fn refused(refusal: Refusal) -> String {
    match refusal.place {
        Place::Opening => format!("{} opening", refusal.number()),
        Place::Record(record) => format!("{} {record}", refusal.number()),
    }
}

fn counted(answer: Result<usize, Refusal>) -> String {
    answer.map_or_else(refused, |count| format!("0 {count}"))
}

/// The answer of a job, and what the buffer lent to it then holds.
fn written(room: &str, job: impl FnOnce(&mut [u8]) -> Result<usize, Refusal>) -> Answer {
    let mut out = vec![0xa5; room.parse()?];
    let answer = counted(job(&mut out));
    Ok(format!("{answer} {}", digest(&out)))
}

fn listed(text: impl AsRef<[u8]>) -> String {
    let text = text.as_ref();
    format!("0 {} {}", text.len(), digest(text))
}

fn explained(reasons: Vec<Reason>) -> String {
    let each = reasons.iter().map(|reason| {
        let (record, number, text) = (reason.record, reason.number, digest(reason.text));
        format!(" {record}:R{number:02} {text}")
    });
    format!("0 {}{}", reasons.len(), each.collect::<String>())
}

fn day(day: Day) -> String {
    let answers = day.answers.into_iter().map(|answer| match answer {
        Ok(()) => "0@0".to_string(),
        Err(refusal) => refused(refusal).replace(' ', "@"),
    });
    let cells = day.cells.into_iter().enumerate();
    let cells = cells.filter(|(_, cell)| *cell != Cell::default());
    let cells = cells.map(|(entity, cell)| {
        let (position, sent, received) = (cell.position, cell.sent, cell.received);
        format!("{entity}:{position}/{sent}/{received}")
    });
    let words = ["0 0".to_string()].into_iter().chain(answers).chain(cells);
    words.collect::<Vec<_>>().join(" ")
}

/// The answer to a job in a session.
fn opened(job: &str, opening: Opening, words: &[&str]) -> Answer {
    match (job, words) {
        ("read", [file]) => Ok(counted(opening.read(&fs::read(file)?))),
        ("extract", [entity, file, room]) => {
            let (entity, file) = (entity.parse()?, fs::read(file)?);
            written(room, |out| opening.extract(entity, &file, out))
        }
        ("build", [header, tray, room]) => {
            let (header, tray) = (fs::read(header)?, fs::read(tray)?);
            written(room, |out| opening.build(&header, &tray, out))
        }
        ("strip", [file, room]) => {
            let file = fs::read(file)?;
            written(room, |out| opening.strip(&file, out))
        }
        ("day" | "day_listing", names) => {
            let files = names.iter().map(fs::read).collect::<Result<Vec<_>, _>>()?;
            let files: Vec<_> = files.iter().map(Vec::as_slice).collect();
            let answer = match job {
                "day" => opening.day(&files).map(day),
                _ => opening.day_listing(&files).map(listed),
            };
            Ok(answer.unwrap_or_else(refused))
        }
        _ => received(job, opening, words),
    }
}

/// The answer to a job of a member's desk in a session.
fn received(job: &str, opening: Opening, words: &[&str]) -> Answer {
    match (job, words) {
        ("receive", [entity, file]) => {
            let entity = entity.parse()?;
            Ok(counted(opening.receive(entity, &fs::read(file)?)))
        }
        ("show", [entity, file, motives, record]) => {
            let (entity, record) = (entity.parse()?, record.parse()?);
            let (file, motives) = (fs::read(file)?, fs::read(motives)?);
            let text = opening.show(entity, &file, &motives, record);
            Ok(text.map_or_else(refused, listed))
        }
        ("reasons", [entity, file, motives]) => {
            let (entity, file, motives) = (entity.parse()?, fs::read(file)?, fs::read(motives)?);
            let reasons = opening.reasons(entity, &file, &motives);
            Ok(reasons.map_or_else(refused, explained))
        }
        _ => Err("no such call".into()),
    }
}

fn currency(word: &str) -> Currency {
    match word {
        "dollars" => Currency::Dollars,
        _ => Currency::Pesos,
    }
}

/// The answer to one call.
fn answer(line: &str) -> Answer {
    let words: Vec<_> = line.split(' ').collect();
    match words.as_slice() {
        ["listing", file] => Ok(listed(desk::listing(&fs::read(file)?))),
        ["company", word, lo, file, room] => {
            let (lo, file) = (fs::read(lo)?, fs::read(file)?);
            written(room, |out| desk::company(currency(word), &lo, &file, out))
        }
        [job, date, word, entities, words @ ..] => {
            let entities = entities.split(',').filter(|&word| word != "nobody");
            let entities: Result<Vec<_>, _> = entities.map(str::parse).collect();
            let opening = Opening {
                date: date.parse()?,
                currency: currency(word),
                entities: &entities?,
            };
            opened(job, opening, words)
        }
        _ => Err("no call".into()),
    }
}

fn main() -> Result<(), Box<dyn Error>> {
    let mut out = io::stdout().lock();
    for line in io::stdin().lock().lines() {
        let line = line?;
        let answer = answer(&line).map_err(|error| format!("{line}: {error}"))?;
        writeln!(out, "{line} = {answer}")?;
    }
    Ok(())
}

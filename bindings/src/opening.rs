//! A session's opening, and the jobs done in it.

use crate::calls::{self, Shown, Spoken};
use crate::{listed, Refusal, ENTITIES, FIGURES, POSITION, RECEIVED, SENT};
use crate::{FILE_LIMIT, IN_FILE, IN_MOTIVES, RECORD, TEXT};

#[derive(Clone, Copy, Debug, PartialEq, Eq, Hash)]
pub enum Currency {
    Pesos,
    Dollars,
}

/// What a session is opened with, for each job anew.
///
/// A bad date is refused by 75, then an entity number not 1 to 499 by 208, at [`Place::Opening`](crate::Place::Opening): the job is not
/// begun then, and nothing lent is written.
#[derive(Clone, Copy, Debug, PartialEq, Eq, Hash)]
pub struct Opening<'a> {
    /// AAMMDD, as the number those digits spell.
    pub date: u64,
    pub currency: Currency,
    /// Entity numbers of the roster, in any order, repeats allowed.
    pub entities: &'a [u64],
}

/// What the session holds for an entity; further figures may come.
#[derive(Clone, Copy, Debug, Default, PartialEq, Eq)]
#[non_exhaustive]
pub struct Cell {
    /// In cents; negative where the entity pays.
    pub position: i64,
    /// Individual records sent and received.
    pub sent: u64,
    pub received: u64,
}

/// All that a day leaves behind.
#[derive(Clone, Debug, PartialEq, Eq)]
#[non_exhaustive]
pub struct Day {
    /// One for each file.
    pub answers: Vec<Result<(), Refusal>>,
    /// By entity number, for all [`ENTITIES`].
    pub cells: Vec<Cell>,
}

/// Why a debit came back.
#[derive(Clone, Copy, Debug, PartialEq, Eq)]
#[non_exhaustive]
pub struct Reason<'a> {
    /// The additional record of the rejection, from 0.
    pub record: usize,
    /// The R number in it.
    pub number: u8,
    /// [`TEXT`] bytes of the file or of the motive list, as they stand.
    pub text: &'a [u8],
}

impl Opening<'_> {
    /// The opening's own answer.
    pub fn answer(&self) -> Result<(), Refusal> {
        calls::day(self, &[], &[], &mut [], &mut []).answer()
    }

    /// Reads a file, and counts its records.
    pub fn read(&self, file: &[u8]) -> Result<usize, Refusal> {
        calls::read(self, file).counted()
    }

    /// Presents the files in turn. A refused one changes no cell and uses up no identifier.
    pub fn day(&self, files: &[&[u8]]) -> Result<Day, Refusal> {
        let mut said = vec![0; 2 * files.len()];
        let mut figures = vec![0; FIGURES * ENTITIES];
        calls::day(self, &ends(files), &files.concat(), &mut said, &mut figures).answer()?;
        let answer = |pair: &[u64]| {
            let (number, place) = (pair[0], pair[1]);
            Spoken { number, place }.answer()
        };
        let cell = |entity| {
            let figure = |figure| figures[figure * ENTITIES + entity];
            Cell {
                position: figure(POSITION),
                sent: figure(SENT) as u64,
                received: figure(RECEIVED) as u64,
            }
        };
        Ok(Day {
            answers: said.chunks_exact(2).map(answer).collect(),
            cells: (0..ENTITIES).map(cell).collect(),
        })
    }

    /// The listing of the session at the end of such a day, whatever the answers were.
    pub fn day_listing(&self, files: &[&[u8]]) -> Result<Vec<u8>, Refusal> {
        listed(|out| calls::day_listing(self, &ends(files), &files.concat(), out).counted())
    }

    /// Writes what the file holds for one entity at the front of the buffer, and counts its bytes; the rest of the buffer stays.
    ///
    /// Refused by 208, then as the file's reading is, then by 206, with the buffer as it was. A buffer of the file's length is always
    /// enough.
    pub fn extract(&self, entity: u64, file: &[u8], out: &mut [u8]) -> Result<usize, Refusal> {
        calls::extract(self, entity, file, out).counted()
    }

    /// Writes the file built from a header body of 94 bytes and a tray at the front of the buffer, and counts its bytes; the rest of the
    /// buffer stays.
    ///
    /// Refused by 207 (at 0 for a wrong length of either, else at the first bad record of the tray), then by 201, then by 206, with the
    /// buffer as it was; then as the reading of the file built is, with spaces in all the bytes that the file would have taken.
    /// [`FILE_LIMIT`](crate::FILE_LIMIT) bytes are always enough.
    pub fn build(&self, header: &[u8], tray: &[u8], out: &mut [u8]) -> Result<usize, Refusal> {
        calls::build(self, header, tray, out).counted()
    }

    /// Writes the tray of a file at the front of the buffer, and counts its bytes; the rest of the buffer stays.
    ///
    /// Refused as the file's reading is, then by 206, with the buffer as it was. [`TRAY_ROOM`](crate::TRAY_ROOM) bytes are always enough.
    pub fn strip(&self, file: &[u8], out: &mut [u8]) -> Result<usize, Refusal> {
        calls::strip(self, file, out).counted()
    }

    /// Reads an extract as the desk of its entity does, and counts its records; nothing is posted.
    ///
    /// Refused by 208, then as the reading is, where another desk's header, a foreign destination or a wrong batch number is 17.
    pub fn receive(&self, entity: u64, file: &[u8]) -> Result<usize, Refusal> {
        calls::receive(self, entity, file).counted()
    }

    /// The text of the reason in one record of an extract, the additional record of a rejection: its positions 36-79 where they are not
    /// all blank, otherwise the line of its R number in a motive list of [`MOTIVES`](crate::MOTIVES) bytes.
    ///
    /// Refused by 208, then by 207 for a motive list of another length, then as receiving is, then by 214 where the record is no such one.
    pub fn show<'a>(
        &self,
        entity: u64,
        file: &'a [u8],
        motives: &'a [u8],
        record: u64,
    ) -> Result<&'a [u8], Refusal> {
        let Shown {
            number,
            place,
            source,
            at,
        } = calls::show(self, entity, file, motives, record);
        Spoken { number, place }.answer()?;
        Ok(text(source, at, file, motives).expect("a text is shown"))
    }

    /// The reasons in all records of an extract, in the order of the records. Refused as showing is, but for 214.
    pub fn reasons<'a>(
        &self,
        entity: u64,
        file: &'a [u8],
        motives: &'a [u8],
    ) -> Result<Vec<Reason<'a>>, Refusal> {
        let mut texts = vec![0; 2 * (file.len().min(FILE_LIMIT) / RECORD)];
        calls::reasons(self, entity, file, motives, &mut texts).answer()?;
        let reason = |(record, pair): (usize, &[u64])| {
            let text = text(pair[0], pair[1], file, motives)?;
            let digit = |position: usize| file[record * RECORD + position - 1] - b'0';
            Some(Reason {
                record,
                number: 10 * digit(5) + digit(6),
                text,
            })
        };
        let pairs = texts.chunks_exact(2).enumerate();
        Ok(pairs.filter_map(reason).collect())
    }
}

/// The text that begins at a byte of its source, if there is one.
fn text<'a>(source: u64, at: u64, file: &'a [u8], motives: &'a [u8]) -> Option<&'a [u8]> {
    let bytes = match source {
        IN_FILE => file,
        IN_MOTIVES => motives,
        _ => return None,
    };
    Some(&bytes[at as usize..][..TEXT])
}

/// Where each file ends, in bytes from the first file's beginning.
fn ends(files: &[&[u8]]) -> Vec<u64> {
    let lengths = files.iter().map(|file| file.len() as u64);
    lengths
        .scan(0, |end, length| {
            *end += length;
            Some(*end)
        })
        .collect()
}

//! How a tray record lacks its form.

/// Mark and type of each kind.
const NAMES: [&[u8; 3]; 3] = [b"LO5", b"IN6", b"AD7"];

fn by_mark(record: &[u8]) -> Option<&'static [u8; 3]> {
    NAMES.into_iter().find(|name| name[..2] == record[..2])
}

fn by_type(record: &[u8]) -> Option<&'static [u8; 3]> {
    NAMES.into_iter().find(|name| name[2] == record[2])
}

/// No mark, but one letter of the mark that belongs to its type.
pub fn keeps_letter(record: &[u8], index: usize) -> bool {
    let keeps = |name: &[u8; 3]| name[index] == record[index];
    by_mark(record).is_none() && by_type(record).is_some_and(keeps)
}

/// No mark, but a first letter and a second one of different marks.
pub fn mixes_letters(record: &[u8]) -> bool {
    let mixed = b"LIA".contains(&record[0]) && b"OND".contains(&record[1]);
    by_mark(record).is_none() && by_type(record).is_some() && mixed
}

/// The mark of one kind and the type of another.
pub fn mixes_kinds(record: &[u8]) -> bool {
    let (mark, kind) = (by_mark(record), by_type(record));
    mark.is_some() && kind.is_some() && mark != kind
}

/// A type behind a good mark that is no tray record's.
pub fn bad_type(record: &[u8]) -> Option<u8> {
    let no_type = by_mark(record).is_some() && by_type(record).is_none();
    no_type.then_some(record[2])
}

/// The tail of a record with a good mark and its type; it must be at fault then.
pub fn bad_tail(record: &[u8]) -> Option<&[u8]> {
    let mark = by_mark(record)?;
    (by_type(record) == Some(mark)).then_some(&record[89..96])
}

/// The only position of such a tail that is no zero, from 88 to 94, and what stands there.
fn stray(record: &[u8]) -> Option<(usize, u8)> {
    let bytes = (88..).zip(bad_tail(record)?.iter().copied());
    let mut bad = bytes.filter(|&(_, byte)| byte != b'0');
    bad.next().filter(|_| bad.next().is_none())
}

pub fn stray_at(record: &[u8]) -> Option<usize> {
    stray(record).map(|(position, _)| position)
}

pub fn stray_byte(record: &[u8]) -> Option<u8> {
    stray(record).map(|(_, byte)| byte)
}

/// Neither digit, blank nor letter.
pub fn is_odd(byte: u8) -> bool {
    !(byte.is_ascii_digit() || byte == b' ' || byte.is_ascii_uppercase())
}

//! Lengths that no company's file has, and bytes that are none.

use super::draft::{CompanyDraft, DETAIL};
use super::faults::any_fault;
use super::good::{any_good, with_details};
use super::odd::bad_lo_body;
use crate::generate::random::{Random, CHARACTERS};

/// By the round each number of bytes left over comes in turn.
pub fn bad_length(random: &mut Random, round: usize) -> CompanyDraft {
    let mut draft = match random.below(4) {
        0 => bad_lo_body(random, 1),
        1 => {
            let mut draft = with_details(random);
            any_fault(random, &mut draft);
            draft
        }
        _ => any_good(random),
    };
    draft.family = "length";
    let mut bytes = resized(random, round, draft.bytes());
    if bytes.len().is_multiple_of(DETAIL) && !bytes.is_empty() {
        bytes.pop();
    }
    draft.bytes = Some(bytes);
    draft
}

fn resized(random: &mut Random, round: usize, mut bytes: Vec<u8>) -> Vec<u8> {
    let any = random.below(1_000);
    let way = if round.is_multiple_of(2) {
        7
    } else {
        random.below(7)
    };
    match way {
        0 => Vec::new(),
        1 => {
            let length = *random.pick(&[1, 1, 94, 125, 188, 249, 249, 251, 251, 499, 501, any]);
            bytes.iter().copied().cycle().take(length).collect()
        }
        2 => with_line_ends(&bytes, b"\n"),
        3 => with_line_ends(&bytes, b"\r\n"),
        4 => {
            let less = *random.pick(&[1, 1, 2, 125, 249]);
            bytes.truncate(bytes.len().saturating_sub(less));
            bytes
        }
        5 => {
            bytes.push(*random.pick(b"\n\x1a T\x00"));
            bytes
        }
        6 => [b"\xef\xbb\xbf".as_slice(), &bytes].concat(),
        _ => {
            let more = 1 + round / 2 % (DETAIL - 1);
            bytes.extend((0..more).map(|_| random.character()));
            bytes
        }
    }
}

fn with_line_ends(bytes: &[u8], end: &[u8]) -> Vec<u8> {
    let lines = bytes.chunks(DETAIL).map(|record| [record, end].concat());
    lines.flatten().collect()
}

/// Bytes at random, good files of which some bytes have become others, and records of other files.
pub fn any_bytes(random: &mut Random) -> CompanyDraft {
    let mut draft = with_details(random);
    draft.is_unknown = true;
    if random.once_in(3) {
        let length = DETAIL * random.between(1, 5);
        let mut bytes: Vec<u8> = (0..length).map(|_| random.byte()).collect();
        if random.once_in(2) {
            let last = length - DETAIL;
            bytes[..last]
                .chunks_mut(DETAIL)
                .for_each(|detail| detail[0] = b'D');
            bytes[last] = b'T';
        }
        draft.bytes = Some(bytes);
        return draft.named("random bytes");
    }
    for _ in 0..random.between(1, 4) {
        let place = random.below(draft.details.len());
        draft.details[place][random.below(DETAIL)] = *random.pick(CHARACTERS);
    }
    if random.once_in(2) {
        draft.settle();
    }
    draft.named("bytes changed")
}

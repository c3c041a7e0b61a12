//! What can be wrong with a detail, one fault for each rule or part of a rule, in the order of the refusals.

use super::bytes::{any_other, no_digit};
use super::dates::other_due;
use super::draft::{CompanyDraft, Detail};
use super::good::{code, with_details};
use crate::generate::damage::bad_byte;
use crate::generate::draft::{put, put_number};
use crate::generate::entities::other_currency as other;
use crate::generate::random::Random;

/// The number that it is refused by, and how it is put.
type Fault = (u16, fn(&mut Random, &CompanyDraft, &mut Detail));

const FAULTS: [Fault; 11] = [
    (17, another_kind),
    (17, block_1),
    (17, block_2),
    (17, entity),
    (17, blank_reference),
    (17, reference),
    (17, blank_client),
    (17, client),
    (203, currency),
    (19, amount),
    (75, due),
];

/// Each fault in turn, at the first, the last or any detail.
pub fn one_fault(random: &mut Random, round: usize) -> CompanyDraft {
    let mut draft = with_details(random).named("one fault");
    let place = any_place(random, &draft);
    put_fault(random, &mut draft, place, round);
    finish(random, draft)
}

/// All pairs of faults in turn.
pub fn two_in_one_record(random: &mut Random, round: usize) -> CompanyDraft {
    let mut draft = with_details(random).named("two faults in one record");
    let place = any_place(random, &draft);
    put_fault(random, &mut draft, place, round);
    put_fault(random, &mut draft, place, round / FAULTS.len());
    if random.once_in(8) {
        put_fault(random, &mut draft, place, round / 3);
    }
    finish(random, draft)
}

/// The earlier one counts, whatever its rule.
pub fn two_in_two_records(random: &mut Random, round: usize) -> CompanyDraft {
    let mut draft = with_details(random).named("faults in two records");
    let (one, another) = (any_place(random, &draft), any_place(random, &draft));
    put_fault(random, &mut draft, one, round);
    put_fault(random, &mut draft, another, round / FAULTS.len());
    finish(random, draft)
}

/// A good file for the other currency: field 13, or the caller, is wrong in all details.
pub fn other_currency(random: &mut Random) -> CompanyDraft {
    let mut draft = with_details(random).named("other currency");
    match random.below(3) {
        0 => draft.currency = other(draft.currency),
        1 => {
            let swapped = code(other(draft.currency));
            draft
                .details
                .iter_mut()
                .for_each(|detail| put(detail, 114, swapped));
        }
        _ => {
            let place = any_place(random, &draft);
            let swapped = code(other(draft.currency));
            put(&mut draft.details[place], 114, swapped);
            draft.faults.push((place, 203));
            return finish(random, draft);
        }
    }
    draft.lo_reads = false;
    draft.faults.push((0, 203));
    finish(random, draft)
}

/// In one detail, from one on, or in all.
pub fn due_wrong(random: &mut Random) -> CompanyDraft {
    let mut draft = with_details(random).named("due date");
    let (first, due) = (any_place(random, &draft), draft.due());
    let behind = draft.details.len() - first;
    let wrong = other_due(random, &due);
    for detail in draft.details[first..]
        .iter_mut()
        .take(*random.pick(&[1, 1, behind]))
    {
        put(detail, 26, &wrong);
    }
    draft.faults.push((first, 75));
    draft
}

/// Any of them at any detail.
pub fn any_fault(random: &mut Random, draft: &mut CompanyDraft) {
    let place = any_place(random, draft);
    put_any(random, draft, place);
}

/// Any of them at this detail.
pub fn put_any(random: &mut Random, draft: &mut CompanyDraft, place: usize) {
    let which = random.below(FAULTS.len());
    put_fault(random, draft, place, which);
}

/// One of them at this detail, by a number that may go round.
pub fn put_fault(random: &mut Random, draft: &mut CompanyDraft, place: usize, which: usize) {
    let (number, put) = FAULTS[which % FAULTS.len()];
    let mut detail = draft.details[place];
    put(random, draft, &mut detail);
    draft.details[place] = detail;
    draft.faults.push((place, number));
}

/// A faulty file's closing record fits all the same, so that nothing else speaks against it.
fn finish(random: &mut Random, mut draft: CompanyDraft) -> CompanyDraft {
    if !random.once_in(8) {
        draft.settle();
    }
    draft
}

/// Both ends often.
pub fn any_place(random: &mut Random, draft: &CompanyDraft) -> usize {
    random.position(1, draft.details.len()) - 1
}

/// One position of this field becomes no digit.
fn spoil(random: &mut Random, detail: &mut Detail, from: usize, to: usize) {
    let position = random.position(from, to);
    detail[position - 1] = no_digit(random);
}

fn another_kind(random: &mut Random, _: &CompanyDraft, detail: &mut Detail) {
    detail[0] = any_other(random, b'D', b"TACRBdE 0\x04\xc4");
}

fn block_1(random: &mut Random, _: &CompanyDraft, detail: &mut Detail) {
    match random.below(8) {
        0 => detail[33..41].fill(b' '),
        _ => spoil(random, detail, 34, 41),
    }
}

fn block_2(random: &mut Random, _: &CompanyDraft, detail: &mut Detail) {
    match random.below(8) {
        0 => detail[44..58].fill(b' '),
        _ => spoil(random, detail, 45, 58),
    }
}

fn entity(random: &mut Random, _: &CompanyDraft, detail: &mut Detail) {
    let any = random.between(500, 999);
    let entity = *random.pick(&[0, 0, 500, 500, 501, 510, 600, 999, any]);
    put_number(detail, 34, 36, entity as u64);
}

fn blank_reference(_: &mut Random, _: &CompanyDraft, detail: &mut Detail) {
    detail[88..103].fill(b' ');
}

fn blank_client(_: &mut Random, _: &CompanyDraft, detail: &mut Detail) {
    detail[58..80].fill(b' ');
}

fn reference(random: &mut Random, _: &CompanyDraft, detail: &mut Detail) {
    stray(random, detail, 89, 103);
}

fn client(random: &mut Random, _: &CompanyDraft, detail: &mut Detail) {
    stray(random, detail, 59, 80);
}

/// A character that is none, sometimes alone in its field.
fn stray(random: &mut Random, detail: &mut Detail, from: usize, to: usize) {
    if random.once_in(4) {
        detail[from - 1..to].fill(b' ');
    }
    let position = random.position(from, to);
    detail[position - 1] = bad_byte(random);
}

fn currency(random: &mut Random, draft: &CompanyDraft, detail: &mut Detail) {
    let right = code(draft.currency);
    loop {
        let any = [random.byte(), random.byte()];
        let [first, second] = *right;
        let near = [
            *code(other(draft.currency)),
            *b"81",
            *b"  ",
            *b"00",
            [b' ', second],
            [first, b' '],
            [second, first],
            [first, random.digit()],
            [random.digit(), second],
            any,
        ];
        let other = *random.pick(&near);
        if other != *right {
            return put(detail, 114, &other);
        }
    }
}

fn amount(random: &mut Random, _: &CompanyDraft, detail: &mut Detail) {
    let texts: [&[u8; 10]; 9] = [
        b"0000000000",
        b"0000000000",
        b"          ",
        b"         1",
        b"1         ",
        b"+000000001",
        b"-000000001",
        b"00000010.0",
        b"00000000 0",
    ];
    match random.below(3) {
        0 => spoil(random, detail, 104, 113),
        1 => {
            // Zeros but for what is no digit.
            put(detail, 104, b"0000000000");
            spoil(random, detail, 104, 113);
        }
        _ => put(detail, 104, *random.pick(&texts)),
    }
}

fn due(random: &mut Random, draft: &CompanyDraft, detail: &mut Detail) {
    put(detail, 26, &other_due(random, &draft.due()));
}

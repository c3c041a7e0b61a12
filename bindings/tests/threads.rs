//! Every job on threads: with the stack that it needs, and side by side.

mod common;
mod company;
mod rejections;

use common::{lent, record, refused, tray_of, L, OPENING};
use company::{company_file, lo};
use desk::{Currency, Day, Fault, Reason, Refusal};
use desk::{COMPANY_RECORD, FILE_LIMIT, RECORD, TRAY_RECORD, TRAY_ROOM};
use rejections::{motives, rejection};
use std::thread;

/// What a job gives.
#[derive(PartialEq)]
enum Given<'a> {
    Read(Result<usize, Refusal>),
    Day(Result<Day, Refusal>),
    Listed(Result<Vec<u8>, Refusal>),
    Written((Result<usize, Refusal>, Vec<u8>)),
    Shown(Result<&'a [u8], Refusal>),
    Reasons(Result<Vec<Reason<'a>>, Refusal>),
}

/// A job with the stack that it needs.
type Job<'a> = (usize, Box<dyn Fn() -> Given<'a> + Sync + 'a>);

/// The longest tray that a file can be built from, the file, and one that lacks its last record; one of many batches whose numbers all have
/// to be looked at; the longest extract with rejections; and a company's file whose tray takes [`TRAY_ROOM`].
struct Inputs {
    tray: Vec<u8>,
    file: Vec<u8>,
    cut: Vec<u8>,
    fallen: Vec<u8>,
    handed: Vec<u8>,
    motives: Vec<u8>,
    details: Vec<u8>,
}

/// As many batches of one order as a file takes, the first number above the others.
fn fallen(batch: &[u8]) -> Vec<u8> {
    let tray = batch.repeat(3_332);
    let (answer, mut file) = lent(FILE_LIMIT, |out| OPENING.build(record(L, 0), &tray, out));
    file.truncate(answer.expect("a good tray"));
    file[2 * RECORD + 87..3 * RECORD].copy_from_slice(b"9999999");
    assert_eq!(OPENING.read(&file), Ok(file.len() / RECORD));
    file
}

impl Inputs {
    fn new() -> Inputs {
        let tray = tray_of(L);
        let (batch, individual) = tray[..2 * TRAY_RECORD].split_at(TRAY_RECORD);
        let tray = [batch, &individual.repeat(9_996)].concat();
        let (answer, file) = lent(FILE_LIMIT, |out| OPENING.build(record(L, 0), &tray, out));
        assert_eq!(answer, Ok(FILE_LIMIT));
        let cut = file[..FILE_LIMIT - RECORD].to_vec();
        assert_eq!(OPENING.read(&cut), refused(Fault::Format, 9_999));
        let fallen = fallen(&[batch, individual].concat());
        let pair = [("36", "SIN FONDOS"), ("31", "")];
        let pair = pair.map(|(code, text)| rejection(code, "04020001", 10, text));
        let rejected = [batch, &pair.concat().repeat(2_499)].concat();
        let build = |out: &mut [u8]| OPENING.build(record(L, 0), &rejected, out);
        let (answer, returned) = lent(FILE_LIMIT, build);
        assert_eq!(answer, Ok(FILE_LIMIT));
        let (answer, handed) = lent(FILE_LIMIT, |out| OPENING.extract(402, &returned, out));
        assert_eq!(answer, Ok(FILE_LIMIT));
        let motives = motives();
        let details = company_file(Currency::Pesos, &[12_500; TRAY_ROOM / TRAY_RECORD - 1]);
        let (answer, _) = lent(TRAY_ROOM, |out| {
            desk::company(Currency::Pesos, &lo(Currency::Pesos), &details, out)
        });
        assert_eq!(answer, Ok(TRAY_ROOM));
        Inputs {
            tray,
            file,
            cut,
            fallen,
            handed,
            motives,
            details,
        }
    }

    /// Good ones and refused ones.
    fn jobs(&self) -> Vec<Job<'_>> {
        let mut jobs = self.read();
        jobs.extend(self.written());
        jobs.extend(self.received());
        jobs.extend(self.of_a_company());
        jobs
    }

    fn read(&self) -> Vec<Job<'_>> {
        let Inputs {
            file, cut, fallen, ..
        } = self;
        let read = |file| Given::Read(OPENING.read(file));
        let listing = |input| Given::Listed(Ok(desk::listing(input)));
        let day = desk::STACK_DAY;
        vec![
            (desk::STACK_READ, Box::new(move || read(file))),
            (desk::STACK_READ, Box::new(move || read(cut))),
            (desk::STACK_READ, Box::new(move || read(fallen))),
            (day, Box::new(|| Given::Day(OPENING.day(&[fallen])))),
            (
                day,
                Box::new(|| Given::Day(OPENING.day(&[cut, L, file, file]))),
            ),
            (
                desk::STACK_DAY_LISTING,
                Box::new(|| Given::Listed(OPENING.day_listing(&[cut, L, file]))),
            ),
            (desk::STACK_LISTING, Box::new(move || listing(L))),
        ]
    }

    fn written(&self) -> Vec<Job<'_>> {
        let Inputs {
            tray,
            file,
            cut,
            fallen,
            ..
        } = self;
        let build =
            |tray, room| Given::Written(lent(room, |out| OPENING.build(record(L, 0), tray, out)));
        let extract =
            |file, room| Given::Written(lent(room, |out| OPENING.extract(402, file, out)));
        let strip = |file, room| Given::Written(lent(room, |out| OPENING.strip(file, out)));
        let (extracting, building, stripping) =
            (desk::STACK_EXTRACT, desk::STACK_BUILD, desk::STACK_STRIP);
        vec![
            (extracting, Box::new(move || extract(file, FILE_LIMIT))),
            (extracting, Box::new(move || extract(file, FILE_LIMIT - 1))),
            (extracting, Box::new(move || extract(fallen, FILE_LIMIT))),
            (building, Box::new(move || build(tray, FILE_LIMIT))),
            (building, Box::new(move || build(&tray[1..], FILE_LIMIT))),
            (stripping, Box::new(move || strip(file, TRAY_ROOM))),
            (stripping, Box::new(move || strip(cut, TRAY_ROOM))),
            (stripping, Box::new(move || strip(fallen, TRAY_ROOM))),
        ]
    }

    fn received(&self) -> Vec<Job<'_>> {
        let Inputs {
            handed, motives, ..
        } = self;
        let unclosed = &handed[..FILE_LIMIT - RECORD];
        let receive = |file| Given::Read(OPENING.receive(402, file));
        let show = |file, record| Given::Shown(OPENING.show(402, file, motives, record));
        let reasons = |file| Given::Reasons(OPENING.reasons(402, file, motives));
        vec![
            (desk::STACK_RECEIVE, Box::new(move || receive(handed))),
            (desk::STACK_RECEIVE, Box::new(move || receive(unclosed))),
            (desk::STACK_SHOW, Box::new(move || show(handed, 9_997))),
            (desk::STACK_SHOW, Box::new(move || show(handed, 9_998))),
            (desk::STACK_REASONS, Box::new(move || reasons(handed))),
            (desk::STACK_REASONS, Box::new(move || reasons(unclosed))),
        ]
    }

    fn of_a_company(&self) -> Vec<Job<'_>> {
        let file = &self.details;
        let unclosed = &file[..file.len() - COMPANY_RECORD];
        let tray = |file, room| {
            let lo = lo(Currency::Pesos);
            let job = |out: &mut [u8]| desk::company(Currency::Pesos, &lo, file, out);
            Given::Written(lent(room, job))
        };
        let stack = desk::STACK_COMPANY;
        vec![
            (stack, Box::new(move || tray(file, TRAY_ROOM))),
            (stack, Box::new(move || tray(file, TRAY_ROOM - 1))),
            (stack, Box::new(move || tray(unclosed, TRAY_ROOM))),
        ]
    }
}

#[test]
fn with_the_stack_that_a_call_needs() {
    let inputs = Inputs::new();
    for (stack, job) in &inputs.jobs() {
        let thread = thread::Builder::new().stack_size(*stack);
        let given = thread::scope(|scope| {
            let thread = thread.spawn_scoped(scope, job);
            thread.expect("a thread").join().expect("an answer")
        });
        assert!(given == job(), "with {stack} bytes of stack");
    }
}

#[test]
fn side_by_side() {
    let inputs = Inputs::new();
    let jobs = &inputs.jobs();
    let alone: &Vec<_> = &jobs.iter().map(|(_, job)| job()).collect();
    thread::scope(|scope| {
        for first in 0..8 {
            scope.spawn(move || {
                for job in (first..first + jobs.len()).map(|job| job % jobs.len()) {
                    assert!(jobs[job].1() == alone[job], "job {job}");
                }
            });
        }
    });
}

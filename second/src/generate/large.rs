//! The few large files: full ones, and control totals beyond ten digits.

use super::case::{accepted, refused, Answer, Case};
use super::counters::scatter_and_repeat;
use super::draft::{put, put_number, Draft};
use super::good::{file_of, smallest_batches, Amounts, Maker, MODEST};
use super::numbering::renumber;
use super::random::Random;
use crate::reading::RECORD;
use crate::Currency;

/// How many large files a run holds; they come first.
pub const LARGE: u64 = 36;

const FULL: usize = 10_000;
const FIRST_INDIVIDUAL: usize = 2;
/// As many batches of one individual record as a file takes.
const SMALLEST: usize = 3_332;

pub fn large_file(random: &mut Random, number: u64) -> Case {
    match number {
        0..=2 => full(random, |_| Some(Ok(FULL))),
        3 => full(random, |draft| spoil(draft, FULL - 1, 13, b' ')),
        4 => full(random, |draft| spoil(draft, FULL - 2, 10, b' ')),
        5 => full(random, |draft| spoil(draft, FULL - 1, 94, 96)),
        6 => full(random, last_amount_zero),
        7 => full(random, last_counter_back),
        8 => full(random, without_end),
        9 => full(random, cut_before_end),
        10 => full(random, one_too_many),
        11 => full(random, |draft| spoil(draft, 0, 2, b'1')),
        12 => one_batch(random),
        13 => Case::good("smallest batches", &single_records(random)),
        14 => Case::with(
            "blanks",
            any_rules(random),
            vec![b' '; FULL * RECORD],
            refused(17, 0),
        ),
        15 => bytes(random, FULL * RECORD),
        16 => bytes(random, FULL * RECORD + RECORD),
        17 => bytes(random, FULL * RECORD - 1),
        18 => bytes(random, FULL * RECORD + 1),
        19 => totals(random, Currency::Dollars, &[1_001], Total::Kept),
        20 => totals(random, Currency::Dollars, &[1_001], Total::OneMore),
        21 => totals(random, Currency::Dollars, &[1_000], Total::Kept),
        22 => totals(random, Currency::Dollars, &[500, 501], Total::Kept),
        23 => totals(random, Currency::Dollars, &[500, 501], Total::OneMore),
        24 => totals(random, Currency::Pesos, &[2_001], Total::Kept),
        25 => totals(random, Currency::Pesos, &[1_500, 1_500], Total::Kept),
        26 => totals(random, Currency::Dollars, &[3_003, 4_004, 1], Total::Kept),
        27 => totals(random, Currency::Dollars, &[9_996], Total::Kept),
        _ => large_counters(random, number),
    }
}

/// Those whose counters fall or repeat.
fn large_counters(random: &mut Random, number: u64) -> Case {
    match number {
        28 => falling(random, full_draft, |draft| accepted(draft)),
        29 => falling(random, single_records, |draft| accepted(draft)),
        30 => falling(random, full_draft, last_counter_back),
        31 => falling(random, full_draft, |draft| spoil(draft, FULL - 1, 13, b' ')),
        32 => repeating(random, full_draft, 1),
        33 => repeating(random, single_records, 1),
        34 => repeating(random, full_draft, 2),
        _ => repeating(random, single_records, 4),
    }
}

fn any_rules(random: &mut Random) -> crate::Rules {
    Maker::new(random).rules
}

fn full_draft(random: &mut Random) -> Draft {
    file_of(random, FULL)
}

fn single_records(random: &mut Random) -> Draft {
    smallest_batches(random, SMALLEST)
}

/// A good file of 10,000 records, which `change` may spoil.
fn full(random: &mut Random, change: impl Fn(&mut Draft) -> Answer) -> Case {
    let mut draft = full_draft(random);
    let expected = change(&mut draft);
    Case::of("10,000 records", &draft, expected)
}

/// The same with counters that fall.
fn falling(
    random: &mut Random,
    make: fn(&mut Random) -> Draft,
    change: impl Fn(&mut Draft) -> Answer,
) -> Case {
    let mut draft = make(random);
    renumber(random, &mut draft);
    let expected = change(&mut draft);
    Case::of("10,000 records with falling counters", &draft, expected)
}

fn repeating(random: &mut Random, make: fn(&mut Random) -> Draft, repeats: usize) -> Case {
    let mut draft = make(random);
    let expected = scatter_and_repeat(random, &mut draft, repeats);
    Case::of("10,000 records with repeated counters", &draft, expected)
}

fn spoil(draft: &mut Draft, place: usize, position: usize, byte: u8) -> Answer {
    draft.records[place][position - 1] = byte;
    refused(17, place)
}

fn last_individual(draft: &Draft) -> usize {
    let last = draft.last_before(draft.records.len(), b'6');
    last.expect("full files hold individual records")
}

fn last_amount_zero(draft: &mut Draft) -> Answer {
    let place = last_individual(draft);
    put(&mut draft.records[place], 30, b"0000000000");
    refused(19, place)
}

/// That of the first individual record, behind both headers.
fn last_counter_back(draft: &mut Draft) -> Answer {
    let place = last_individual(draft);
    let first: [u8; 7] = std::array::from_fn(|index| draft.records[FIRST_INDIVIDUAL][87 + index]);
    put(&mut draft.records[place], 88, &first);
    refused(27, place)
}

/// An 8 takes the last place, so that 10,000 good records end before a 9.
fn without_end(draft: &mut Draft) -> Answer {
    draft.records.pop();
    let control = draft.records.pop()?;
    let mut extra = draft.records[draft.last_before(FULL - 2, b'6')?];
    let place = last_individual(draft);
    extra[1..3].copy_from_slice(b"37");
    put(&mut extra, 77, b"000");
    // Room for one more sequence number behind the last.
    put(&mut draft.records[place], 88, b"9999998");
    if draft.records[place + 1..]
        .first()
        .is_some_and(|next| next[0] == b'7')
    {
        put(&mut draft.records[place + 1], 88, b"9999998");
    }
    put(&mut extra, 88, b"9999999");
    draft.records.extend([extra, control]);
    draft.settle();
    refused(17, FULL)
}

fn cut_before_end(draft: &mut Draft) -> Answer {
    draft.records.pop();
    refused(17, FULL - 1)
}

fn one_too_many(draft: &mut Draft) -> Answer {
    draft.records.push(draft.records[FULL - 1]);
    refused(201, 0)
}

fn one_batch(random: &mut Random) -> Case {
    let mut maker = Maker::new(random);
    maker.amounts = MODEST;
    maker.batch(FULL - 4);
    Case::of("one large batch", &maker.finish(), Some(Ok(FULL)))
}

fn bytes(random: &mut Random, length: usize) -> Case {
    let rules = any_rules(random);
    let file: Vec<u8> = (0..length).map(|_| random.byte()).collect();
    let good = length == FULL * RECORD;
    // The first byte is no 1, so that the answer is certain.
    let file = [b"0", &file[1..]].concat();
    let expected = if good {
        refused(17, 0)
    } else {
        refused(201, 0)
    };
    Case::with("random bytes", rules, file, expected)
}

enum Total {
    Kept,
    OneMore,
}

/// Batches of orders to entity 499, branch 9999; the last control may be off by one.
fn totals(random: &mut Random, currency: Currency, batches: &[usize], total: Total) -> Case {
    let mut maker = Maker::new(random);
    maker.rules.currency = currency;
    maker.rules.roster[499] = true;
    maker.destination = Some(match currency {
        Currency::Pesos => *b"04999999",
        Currency::Dollars => *b"09999999",
    });
    // Small amounts, so that only the control totals run over.
    maker.amounts = Amounts::All(1);
    for &individuals in batches {
        maker.batch_of_orders(individuals);
    }
    let mut draft = maker.finish();
    let end = draft.records.len() - 1;
    let each: u64 = if currency == Currency::Dollars {
        9_999_999
    } else {
        4_999_999
    };
    let sum = each * batches.iter().sum::<usize>() as u64 % 10_000_000_000;
    let expected = match total {
        Total::Kept => {
            put_number(&mut draft.records[end], 22, 31, sum);
            Some(Ok(end + 1))
        }
        Total::OneMore => {
            put_number(&mut draft.records[end], 22, 31, sum + 1);
            refused(17, end)
        }
    };
    Case::of("control totals", &draft, expected)
}

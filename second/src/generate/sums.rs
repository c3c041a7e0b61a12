//! Amount sums around thirteen digits, in a batch and only in the file.

use super::case::{refused, Case};
use super::draft::{put_number, Draft};
use super::good::{Amounts, Maker};
use super::random::Random;

const LARGEST: u64 = 9_999_999_999;

/// 100 of the largest amounts and 99 cents are the largest sum of twelve digits.
const LAST_CENTS: u64 = 99;

pub fn amount_sums(random: &mut Random) -> Case {
    let debits = random.once_in(2);
    let (in_file, last) = match random.below(5) {
        0 => (false, LAST_CENTS),
        1 => (false, LAST_CENTS + 1),
        2 => (false, LARGEST),
        3 => (true, LAST_CENTS),
        _ => (true, LAST_CENTS + 1),
    };
    if in_file {
        // Two batches, each within twelve digits.
        let first = random.between(1, 99);
        let batches = [first, 101 - first];
        limit(
            random,
            "thirteen digits in the file",
            debits,
            &batches,
            last,
        )
    } else {
        limit(random, "thirteen digits in a batch", debits, &[101], last)
    }
}

/// Batches whose sum is 100 largest amounts and `last`.
fn limit(
    random: &mut Random,
    family: &'static str,
    debits: bool,
    batches: &[usize],
    last: u64,
) -> Case {
    let mut maker = Maker::new(random);
    maker.amounts = Amounts::All(LARGEST);
    for &individuals in batches {
        maker.batch_with(|maker| (0..individuals).for_each(|_| add(maker, debits)));
    }
    let draft = with_last_amount(maker.finish(), last);
    if last <= LAST_CENTS {
        return Case::good(family, &draft);
    }
    // The control of a single batch comes before the file's.
    let behind = if batches.len() == 1 { 1 } else { 0 };
    let control = draft.records.len() - 1 - behind;
    Case::of(family, &draft, refused(17, control))
}

fn add(maker: &mut Maker, debit: bool) {
    if !debit {
        let code = *maker.random.pick(&[b"32", b"31"]);
        maker.individual_of(code, b"00", true);
    } else if maker.random.once_in(4) {
        maker.individual_of(b"36", b"01", true);
    } else {
        maker.order();
    }
}

/// The controls keep the last twelve digits.
fn with_last_amount(mut draft: Draft, amount: u64) -> Draft {
    let last = draft.last_before(draft.records.len(), b'6');
    let place = last.expect("these files hold individual records");
    put_number(&mut draft.records[place], 30, 39, amount);
    draft.settle();
    draft
}

//! LO bodies that the reading takes.

use super::bytes::{put_digits, put_text};
use crate::generate::draft::{put, put_number};
use crate::generate::entities::entity_field;
use crate::generate::random::Random;
use crate::reading::RECORD;
use crate::Currency;

pub fn good_lo(random: &mut Random, currency: Currency, date: u64) -> Vec<u8> {
    let mut lo = vec![b' '; RECORD];
    if random.once_in(2) {
        lo.fill_with(|| random.character());
    }
    put(&mut lo, 1, b"5");
    put_digits(random, &mut lo, 2, 4);
    put_text(random, &mut lo, 5, 20);
    put_digits(random, &mut lo, 41, 50);
    put_text(random, &mut lo, 54, 63);
    put_number(&mut lo, 70, 75, date);
    put_digits(random, &mut lo, 79, 79);
    let any = random.between(1, 499);
    let entity = *random.pick(&[1, 499, any, any, any]);
    let sender = entity_field(random, currency, entity);
    put(&mut lo, 80, &sender);
    put(&mut lo, 88, b"0000000");
    lo
}

//! Good files of which one entity gets every batch, some, one or none, or a share of the records.

use super::draft::{put_number, Draft};
use super::entities::{any_currency, entity_field, relation, roster_with};
use super::good::{any_date, Amounts, Maker, CODES, MODEST};
use super::numbering::renumber_some;
use super::random::Random;
use crate::{Currency, Rules};

/// A file, and the entity that it is meant to be extracted for.
pub struct Addressed {
    pub draft: Draft,
    pub entity: usize,
}

/// Code and information of the individual records that have a reason.
const REJECTIONS: [(&[u8; 2], &[u8; 2]); 3] = [CODES[2], CODES[3], CODES[5]];

/// How many of the individual records go to the entity.
#[derive(Clone, Copy, Debug)]
pub enum Share {
    All,
    Half,
    /// One in so many.
    OneIn(usize),
    None,
}

impl Share {
    fn takes_next(self, random: &mut Random) -> bool {
        match self {
            Share::All => true,
            Share::Half => random.once_in(2),
            Share::OneIn(times) => random.once_in(times),
            Share::None => false,
        }
    }
}

/// The entity asked for, and others who send and receive beside it.
struct Members {
    entity: usize,
    others: Vec<usize>,
}

impl Members {
    /// The others are often those whose number is nearly the same.
    fn any(random: &mut Random) -> Self {
        let any = random.between(1, 499);
        let entity = *random.pick(&[1, 499, any, any, any]);
        let others = (0..random.between(1, 5))
            .map(|_| relation(random, entity))
            .collect();
        Members { entity, others }
    }

    fn all(&self) -> Vec<usize> {
        [&[self.entity], self.others.as_slice()].concat()
    }

    fn rules(&self, random: &mut Random) -> Rules {
        Rules {
            date: any_date(random),
            currency: any_currency(random),
            roster: roster_with(random, &self.all()),
        }
    }

    /// The entity's field with any branch, or that of another.
    fn destination(&self, random: &mut Random, currency: Currency, to_entity: bool) -> [u8; 8] {
        if to_entity {
            return entity_field(random, currency, self.entity);
        }
        let other = *random.pick(&self.others);
        let mut field = entity_field(random, currency, other);
        if random.once_in(6) {
            // Another's branch that spells the entity.
            let entity = entity_field(random, currency, self.entity);
            field[4..].copy_from_slice(&entity[..4]);
        }
        field
    }
}

/// A maker of one file among members.
struct Sender<'r, 'm> {
    maker: Maker<'r>,
    members: &'m Members,
}

impl<'r, 'm> Sender<'r, 'm> {
    fn new(random: &'r mut Random, members: &'m Members) -> Self {
        let rules = members.rules(random);
        Sender {
            maker: Maker::among(random, rules, members.all()),
            members,
        }
    }

    fn aim(&mut self, to_entity: bool) {
        let currency = self.maker.rules.currency;
        let random = &mut *self.maker.random;
        self.maker.destination = Some(self.members.destination(random, currency, to_entity));
    }

    /// One individual record, any code, with or without additional.
    fn send(&mut self, to_entity: bool) {
        self.aim(to_entity);
        let additional = self.maker.random.once_in(2);
        self.maker.individual(additional);
    }

    /// One order or reversal of this amount.
    fn send_amount(&mut self, to_entity: bool, debit: bool, amount: u64) {
        self.aim(to_entity);
        self.maker.amounts = Amounts::All(amount);
        let codes = if debit {
            [b"37", b"36"]
        } else {
            [b"32", b"31"]
        };
        let code = *self.maker.random.pick(&codes);
        self.maker.individual_of(code, b"00", true);
    }

    /// One rejection to the entity, of a debit or of a reversal.
    fn reject(&mut self) {
        self.aim(true);
        let (code, information) = *self.maker.random.pick(&REJECTIONS);
        self.maker.individual_of(code, information, true);
    }

    fn finish(self) -> Addressed {
        Addressed {
            draft: self.maker.finish(),
            entity: self.members.entity,
        }
    }
}

/// The counters of some files fall.
fn renumbered(random: &mut Random, mut addressed: Addressed) -> Addressed {
    renumber_some(random, &mut addressed.draft);
    addressed
}

/// Up to eight batches, of which every one, some, one or none holds a record to the entity.
pub fn addressed_file(random: &mut Random) -> Addressed {
    let members = Members::any(random);
    let batches = random.between(1, 8);
    let only = random.below(batches);
    let pattern = random.below(4);
    let mut sender = Sender::new(random, &members);
    sender.maker.begin();
    for batch in 0..batches {
        let holds = match pattern {
            0 => true,
            1 => sender.maker.random.once_in(2),
            2 => batch == only,
            _ => false,
        };
        add_batch(&mut sender, holds);
    }
    let addressed = sender.finish();
    renumbered(random, addressed)
}

/// A few records, at least one of them to the entity where the batch is to hold one.
fn add_batch(sender: &mut Sender, holds: bool) {
    sender.maker.batch_header();
    let records = sender.maker.random.between(1, 6);
    let sure = sender.maker.random.below(records);
    for record in 0..records {
        let to_entity = holds && (record == sure || sender.maker.random.once_in(3));
        sender.send(to_entity);
    }
    sender.maker.batch_control();
}

/// Batches of which each holds a rejection to the entity, among other records.
pub fn rejected_file(random: &mut Random) -> Addressed {
    let members = Members::any(random);
    let most = *random.pick(&[1, 2, 4, 12, 30]);
    let batches = random.between(1, most);
    let mut sender = Sender::new(random, &members);
    sender.maker.begin();
    for _ in 0..batches {
        sender.maker.batch_header();
        let records = sender.maker.random.between(1, 4);
        let sure = sender.maker.random.below(records);
        for record in 0..records {
            if record == sure || sender.maker.random.once_in(4) {
                sender.reject();
            } else {
                let to_entity = sender.maker.random.once_in(2);
                sender.send(to_entity);
            }
        }
        sender.maker.batch_control();
    }
    let addressed = sender.finish();
    renumbered(random, addressed)
}

/// Header and control, and nobody addressed.
pub fn empty_file(random: &mut Random) -> Addressed {
    let members = Members::any(random);
    Sender::new(random, &members).finish()
}

/// Individual records of a batch: one, several, or all that the file holds.
pub const ONE: usize = 1;
pub const SEVERAL: usize = 12;
pub const ALL: usize = usize::MAX;

/// Exactly so many records, in batches of so many individual ones.
pub fn shared_file(random: &mut Random, records: usize, each: usize, share: Share) -> Addressed {
    let members = Members::any(random);
    let mut sender = Sender::new(random, &members);
    sender.maker.amounts = MODEST;
    sender.maker.begin();
    let mut room = records - 2;
    while room > 0 {
        sender.maker.batch_header();
        room -= 2;
        let mut individuals = 0;
        // The last batch also takes what would be too little for another.
        while room > 0 && (individuals < each || room < 3) {
            let to_entity = share.takes_next(sender.maker.random);
            sender.aim(to_entity);
            let additional = each > 1 && room > 1 && sender.maker.random.once_in(2);
            sender.maker.individual(additional);
            room -= if additional { 2 } else { 1 };
            individuals += 1;
        }
        sender.maker.batch_control();
    }
    sender.finish()
}

/// Amounts to the entity that add up to the largest sum of twelve digits, or nearly.
pub fn largest_sums(random: &mut Random) -> Addressed {
    const LARGEST: u64 = 9_999_999_999;
    let members = Members::any(random);
    let any = random.between(1, 99) as u64;
    let cents = *random.pick(&[99, 98, any]);
    let debit = random.once_in(2);
    let last_to_entity = random.once_in(2);
    let mut sender = Sender::new(random, &members);
    sender.maker.begin();
    // The other sum stays small, so that the two cannot be taken for each other.
    for part in [33, 33, 34] {
        sender.maker.batch_header();
        for _ in 0..part {
            sender.send_amount(true, debit, LARGEST);
        }
        sender.send_amount(true, !debit, 7);
        sender.maker.batch_control();
    }
    sender.maker.batch_header();
    sender.send_amount(last_to_entity, debit, cents);
    sender.maker.batch_control();
    sender.finish()
}

/// Orders to 499 in dollars, branch 9999: from 1,001 of them on their total needs eleven digits, in a batch or only in
/// the file.
pub fn largest_totals(random: &mut Random) -> Addressed {
    let members = Members {
        entity: 499,
        others: vec![498, 1],
    };
    let all = 1_000 + random.between(0, 3);
    let part = random.between(1, 999);
    let first = *random.pick(&[part, all]);
    let second = all - first;
    let to_others = random.below(4);
    let mut sender = Sender::new(random, &members);
    sender.maker.rules.currency = Currency::Dollars;
    sender.maker.amounts = Amounts::All(1);
    sender.maker.begin();
    for individuals in [first, second] {
        if individuals + to_others == 0 {
            continue;
        }
        sender.maker.batch_header();
        for _ in 0..to_others {
            sender.send(false);
        }
        sender.maker.destination = Some(*b"09999999");
        (0..individuals).for_each(|_| sender.maker.order());
        sender.maker.batch_control();
    }
    sender.finish()
}

/// Free positions of every kind of record hold anything good, whatever they held before.
pub fn fill_free_positions(random: &mut Random, draft: &mut Draft) {
    for record in &mut draft.records {
        let free: &[(usize, usize)] = match record[0] {
            b'1' => &[(41, 94)],
            b'5' => &[(21, 40), (51, 53), (64, 69), (76, 78)],
            b'7' if record[1] == b'0' => &[(4, 83)],
            b'7' => &[(36, 79)],
            b'8' => &[(55, 79)],
            b'9' => &[(56, 94)],
            _ => &[],
        };
        for &(from, to) in free {
            record[from - 1..to].fill_with(|| random.character());
        }
    }
}

/// Batch numbers that begin anywhere, or repeat, or fall.
pub fn renumber_batches(random: &mut Random, draft: &mut Draft) {
    let first = *random.pick(&[0, 2, 3, 7, 100, 9_999_990]);
    let step = *random.pick(&[0, 1, 2]);
    let headers = draft.places(|record| record[0] == b'5');
    for (index, place) in headers.into_iter().enumerate() {
        let number = first + step * index as u64;
        put_number(&mut draft.records[place], 88, 94, number);
    }
    draft.settle();
}

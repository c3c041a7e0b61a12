//! Good files of all shapes.

use super::draft::{put, put_number, Draft, Record};
use super::entities::{any_currency, entity_field, roster_with, some_entities};
use super::random::Random;
use crate::reading::RECORD;
use crate::Rules;

/// What free positions hold.
#[derive(Clone, Copy)]
enum Filling {
    Blank,
    Characters,
    Mixed,
}

/// How amounts are drawn.
#[derive(Clone, Copy)]
pub enum Amounts {
    /// From one cent to this, both often.
    UpTo(u64),
    All(u64),
}

/// 10,000 of these stay within twelve digits.
pub const MODEST: Amounts = Amounts::UpTo(99_999_999);

/// Code and information of individual records with an additional; only the first may be without.
pub const CODES: [(&[u8; 2], &[u8; 2]); 6] = [
    (b"37", b"00"),
    (b"37", b"01"),
    (b"36", b"00"),
    (b"36", b"01"),
    (b"32", b"00"),
    (b"31", b"00"),
];

/// A good file of which one part after another is made.
pub struct Maker<'r> {
    pub random: &'r mut Random,
    pub rules: Rules,
    pub amounts: Amounts,
    /// Destinations are this field, where one is given.
    pub destination: Option<[u8; 8]>,
    entities: Vec<usize>,
    filling: Filling,
    sequence: u64,
    widest_gap: usize,
    sender: [u8; 8],
    records: Vec<Record>,
}

/// Small files for the most part: none to some batches of some records.
pub fn any_file(random: &mut Random) -> Draft {
    let batches = *random.pick(&[0, 1, 1, 1, 2, 2, 3, 4, 6]);
    let largest = *random.pick(&[1, 2, 4, 8]);
    Maker::new(random).finish_with(batches, largest)
}

/// A file with at least one batch of several entries.
pub fn file_with_batches(random: &mut Random) -> Draft {
    let batches = random.between(1, 3);
    Maker::new(random).finish_with(batches, 9)
}

/// So many batches of up to so many entries.
pub fn of_batches(random: &mut Random, batches: usize, largest: usize) -> Draft {
    Maker::new(random).finish_with(batches, largest)
}

/// A small file for given rules: 2 to some 40 records.
pub fn small_file(random: &mut Random, rules: &Rules, entities: &[usize]) -> Draft {
    let batches = *random.pick(&[0, 1, 1, 1, 2, 2, 3, 4]);
    let largest = *random.pick(&[1, 2, 4, 8]);
    Maker::among(random, rules.clone(), entities.to_vec()).finish_with(batches, largest)
}

/// A file for given rules of exactly so many records.
pub fn long_file(random: &mut Random, rules: &Rules, entities: &[usize], records: usize) -> Draft {
    Maker::among(random, rules.clone(), entities.to_vec()).finish_at(records)
}

/// A file of exactly so many records, in batches of some twenty.
pub fn file_of(random: &mut Random, records: usize) -> Draft {
    Maker::new(random).finish_at(records)
}

/// Batches of twenty orders without additional, in at most so many records.
pub fn orders(random: &mut Random, records: usize) -> Draft {
    let mut maker = Maker::new(random);
    maker.amounts = MODEST;
    (0..(records - 2) / 22).for_each(|_| maker.batch_of_orders(20));
    maker.finish()
}

/// So many batches of one individual record each: header, individual record, control; and two records besides.
pub fn smallest_batches(random: &mut Random, batches: usize) -> Draft {
    let mut maker = Maker::new(random);
    maker.amounts = MODEST;
    (0..batches).for_each(|_| maker.batch(1));
    maker.finish()
}

impl<'r> Maker<'r> {
    pub fn new(random: &'r mut Random) -> Self {
        let entities = some_entities(random);
        let currency = any_currency(random);
        let roster = roster_with(random, &entities);
        let date = any_date(random);
        let rules = Rules {
            date,
            currency,
            roster,
        };
        Maker::among(random, rules, entities)
    }

    /// Files that suit these rules, among these entities.
    pub fn among(random: &'r mut Random, rules: Rules, entities: Vec<usize>) -> Self {
        let filling = *random.pick(&[Filling::Blank, Filling::Characters, Filling::Mixed]);
        let sequence = if random.once_in(3) {
            random.below(9_000_000) as u64
        } else {
            0
        };
        let widest_gap = *random.pick(&[1, 1, 1, 50]);
        Maker {
            random,
            rules,
            amounts: Amounts::UpTo(9_999_999_999),
            destination: None,
            entities,
            filling,
            sequence,
            widest_gap,
            sender: [b'0'; 8],
            records: Vec::new(),
        }
    }

    /// So many batches of up to so many entries, and the end.
    fn finish_with(mut self, batches: usize, largest: usize) -> Draft {
        for _ in 0..batches {
            let entries = self.random.between(1, largest);
            self.batch(entries);
        }
        self.finish()
    }

    /// Batches of some twenty entries of modest amounts, and the end, in exactly so many records.
    fn finish_at(mut self, records: usize) -> Draft {
        self.amounts = MODEST;
        self.begin();
        while self.records.len() + 1 < records {
            let room = records - 1 - self.records.len();
            let entries = self.random.between(16, 24);
            // What is left over must be nothing or fit a whole batch.
            let entries = if room < entries + 2 + 3 {
                room - 2
            } else {
                entries
            };
            self.batch(entries);
        }
        self.finish()
    }

    /// A batch of exactly so many records of types 6 and 7.
    pub fn batch(&mut self, entries: usize) {
        self.batch_with(|maker| {
            let mut left = entries;
            while left > 0 {
                let additional = left > 1 && !maker.random.once_in(3);
                maker.individual(additional);
                left -= if additional { 2 } else { 1 };
            }
        });
    }

    /// A batch of so many orders without additional.
    pub fn batch_of_orders(&mut self, orders: usize) {
        self.batch_with(|maker| (0..orders).for_each(|_| maker.order()));
    }

    /// A batch of what `fill` puts into it.
    pub fn batch_with(&mut self, fill: impl FnOnce(&mut Self)) {
        self.begin();
        self.batch_header();
        fill(self);
        self.batch_control();
    }

    /// An order without additional.
    pub fn order(&mut self) {
        self.individual_of(b"37", b"00", false);
    }

    pub fn finish(mut self) -> Draft {
        self.begin();
        let mut control = self.blank_form(b'9');
        put(&mut control, 1, b"9");
        self.records.push(control);
        let mut draft = Draft {
            rules: self.rules,
            records: self.records,
        };
        if self.random.once_in(8) {
            end_at_last_sequence(&mut draft);
        }
        draft.settle();
        draft
    }

    /// The file header, unless it stands already.
    pub fn begin(&mut self) {
        if !self.records.is_empty() {
            return;
        }
        let mut header = self.blank_form(b'1');
        put(&mut header, 2, b"01 ");
        self.put_digits(&mut header, 5, 12);
        put(&mut header, 13, b"0 ");
        let origin = self.entity_field();
        put(&mut header, 15, &origin);
        put(&mut header, 23, b"0");
        put_number(&mut header, 24, 29, self.rules.date);
        let time = any_time(self.random);
        put(&mut header, 30, &time);
        header[33] = self
            .random
            .character_with(|byte| byte.is_ascii_alphanumeric());
        put(&mut header, 35, b"094101");
        self.sender = origin;
        self.records.push(header);
    }

    pub fn batch_header(&mut self) {
        let mut header = self.blank_form(b'5');
        put(&mut header, 2, b"200");
        if self.random.once_in(3) {
            self.put_digits(&mut header, 2, 4);
        }
        self.put_text(&mut header, 5, 20);
        self.put_digits(&mut header, 41, 50);
        self.put_text(&mut header, 54, 63);
        let date = any_date(self.random);
        put_number(&mut header, 70, 75, date);
        self.put_digits(&mut header, 79, 79);
        // Often another than the file's origin: members represent others.
        if self.random.once_in(2) {
            self.sender = self.entity_field();
        }
        put(&mut header, 80, &self.sender);
        let any = self.random.below(10_000_000) as u64;
        let number = *self.random.pick(&[0, 1, 1, 2, 9_999_999, any]);
        put_number(&mut header, 88, 94, number);
        self.records.push(header);
    }

    pub fn batch_control(&mut self) {
        let control = self.blank_form(b'8');
        self.records.push(control);
    }

    /// An individual record, with its additional or without.
    pub fn individual(&mut self, additional: bool) {
        if !additional {
            return self.order();
        }
        let (code, information) = *self.random.pick(&CODES);
        self.individual_of(code, information, additional);
    }

    pub fn individual_of(&mut self, code: &[u8; 2], information: &[u8; 2], additional: bool) {
        let mut record = self.blank_form(b'6');
        put(&mut record, 2, code);
        let destination = match self.destination {
            Some(field) => field,
            None if self.random.once_in(6) => self.sender,
            None => self.entity_field(),
        };
        put(&mut record, 4, &destination);
        put(&mut record, 12, b"0");
        self.put_digits(&mut record, 13, 29);
        let amount = self.amount();
        put_number(&mut record, 30, 39, amount);
        self.put_text(&mut record, 40, 54);
        self.put_text(&mut record, 55, 76);
        put(&mut record, 77, information);
        put(&mut record, 79, if additional { b"1" } else { b"0" });
        put(&mut record, 80, &self.sender);
        self.sequence += self.random.between(1, self.widest_gap) as u64;
        put_number(&mut record, 88, 94, self.sequence);
        self.records.push(record);
        if additional {
            self.additional(matches!(code, b"36" | b"31"), &record);
        }
    }

    fn additional(&mut self, rejecting: bool, individual: &Record) {
        let mut record = self.blank_form(b'7');
        if rejecting {
            put(&mut record, 2, b"99R");
            self.put_digits(&mut record, 5, 6);
            self.put_digits(&mut record, 7, 21);
            put(&mut record, 22, b"      ");
            self.put_digits(&mut record, 28, 35);
            put(&mut record, 80, &individual[79..94]);
        } else {
            put(&mut record, 2, b"05");
            self.put_digits(&mut record, 84, 87);
            put(&mut record, 88, &individual[87..94]);
        }
        self.records.push(record);
    }

    /// A record of which only the type is written.
    fn blank_form(&mut self, kind: u8) -> Record {
        let blank = match self.filling {
            Filling::Blank => true,
            Filling::Characters => false,
            Filling::Mixed => self.random.once_in(2),
        };
        let mut record = [b' '; RECORD];
        if !blank {
            record.fill_with(|| self.random.character());
        }
        record[0] = kind;
        record
    }

    pub fn entity_field(&mut self) -> [u8; 8] {
        let entity = *self.random.pick(&self.entities);
        entity_field(self.random, self.rules.currency, entity)
    }

    fn amount(&mut self) -> u64 {
        match self.amounts {
            Amounts::All(amount) => amount,
            Amounts::UpTo(largest) => {
                let small = self.random.between(1, 99_999) as u64;
                let any = self.random.between(1, largest as usize) as u64;
                *self.random.pick(&[1, largest, small, small, any, any])
            }
        }
    }

    fn put_digits(&mut self, record: &mut Record, from: usize, to: usize) {
        let zeros = self.random.once_in(6);
        for byte in &mut record[from - 1..to] {
            *byte = if zeros { b'0' } else { self.random.digit() };
        }
    }

    /// A field that is not all blank: often a single character, at either end too.
    fn put_text(&mut self, record: &mut Record, from: usize, to: usize) {
        let text = &mut record[from - 1..to];
        if self.random.once_in(2) {
            text.fill(b' ');
        } else {
            text.fill_with(|| self.random.character());
        }
        if text.iter().all(|&byte| byte == b' ') {
            let position = self.random.position(from, to);
            record[position - 1] = self.random.character_with(|byte| byte != b' ');
        }
    }
}

/// The file's last individual record takes the highest number there is.
fn end_at_last_sequence(draft: &mut Draft) {
    let Some(place) = draft.last_before(draft.records.len(), b'6') else {
        return;
    };
    put(&mut draft.records[place], 88, b"9999999");
    if draft.records[place + 1][0] == b'7' {
        put(&mut draft.records[place + 1], 88, b"9999999");
    }
}

pub fn any_date(random: &mut Random) -> u64 {
    let year = random.below(100);
    let month = random.between(1, 12);
    let last = match month {
        2 if year.is_multiple_of(4) => 29,
        2 => 28,
        4 | 6 | 9 | 11 => 30,
        _ => 31,
    };
    let any = random.between(1, last);
    let day = *random.pick(&[1, last, any, any]);
    let drawn = (year * 10_000 + month * 100 + day) as u64;
    *random.pick(&[
        229, 240_229, 960_229, 101, 991_231, drawn, drawn, drawn, drawn, drawn,
    ])
}

fn any_time(random: &mut Random) -> [u8; 4] {
    let mut field = [b' '; 4];
    if !random.once_in(3) {
        let any = random.below(24) * 100 + random.below(60);
        let time = *random.pick(&[0, 2359, any, any]);
        put_number(&mut field, 1, 4, time as u64);
    }
    field
}

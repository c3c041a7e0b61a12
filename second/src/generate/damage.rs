//! Faults of the table, applied to a draft: one, or two for the order of checks.

use super::case::{refused, Answer, Case};
use super::draft::{get_number, put, put_number, Draft, Record};
use super::entities::{field_number, named_in, relation};
use super::faults::{Check, Kind, Way, NO_DATES};
use super::good::{any_date, file_with_batches, CODES};
use super::numbering::renumber_some;
use super::random::{Random, CHARACTERS};

/// A fault chosen from the table for one record of a draft.
#[derive(Clone, Copy)]
struct Fault {
    kind: Kind,
    /// Index of the check: the order in which the record is judged.
    rank: usize,
    way: Way,
    place: usize,
}

impl Fault {
    /// In any way and in any record of this kind, of which the draft must have one.
    fn somewhere(random: &mut Random, draft: &Draft, kind: Kind, rank: usize) -> Fault {
        Fault {
            kind,
            rank,
            way: *random.pick(kind.checks()[rank].ways),
            place: *random.pick(&draft.places(|record| kind.is(record))),
        }
    }

    fn check(&self) -> &'static Check {
        &self.kind.checks()[self.rank]
    }

    fn refusal(&self) -> Answer {
        refused(self.check().number, self.place)
    }

    /// Fields of one record whose faults could hide each other.
    fn meets(&self, other: &Fault) -> bool {
        let (mine, its) = (self.check(), other.check());
        // Code, information and flag are judged together.
        let entwined = |check: &Check| matches!(check.from, 2 | 77 | 79);
        let overlap = mine.from <= its.to && its.from <= mine.to;
        let individual = matches!(self.kind, Kind::Individual | Kind::HandedIndividual);
        overlap || (individual && entwined(mine) && entwined(its))
    }
}

/// A good file with at least one batch; the counters of some fall.
fn sound_file(random: &mut Random) -> Draft {
    let mut draft = file_with_batches(random);
    renumber_some(random, &mut draft);
    draft
}

pub fn one_fault(random: &mut Random) -> Case {
    let mut draft = sound_file(random);
    let refusal = put_fault(random, &mut draft, &Kind::ALL);
    Case::of("one fault", &draft, refusal)
}

/// One fault of these kinds in a draft with at least one batch; its rules may change with it.
pub fn put_fault(random: &mut Random, draft: &mut Draft, kinds: &[Kind]) -> Answer {
    let fault = any_fault(random, draft, kinds);
    apply_all(random, draft, &[fault]);
    drop_unflagged_additional(random, draft, fault.place);
    fault.refusal()
}

/// One fault in a record of this kind, all rows alike.
pub fn put_fault_of(random: &mut Random, draft: &mut Draft, kind: Kind) -> Answer {
    let rank = random.below(kind.checks().len());
    let fault = Fault::somewhere(random, draft, kind, rank);
    apply_all(random, draft, &[fault]);
    fault.refusal()
}

/// One fault in a record of these kinds, in a field that building leaves as it is.
pub fn put_body_fault(random: &mut Random, draft: &mut Draft, kinds: &[Kind]) -> Answer {
    let fault = any_body_fault(random, draft, kinds);
    apply(random, draft, &fault);
    drop_unflagged_additional(random, draft, fault.place);
    fault.refusal()
}

/// All rows alike half of the time, otherwise all numbers alike.
fn any_body_fault(random: &mut Random, draft: &Draft, kinds: &[Kind]) -> Fault {
    let present = kinds
        .iter()
        .filter(|kind| draft.records.iter().any(|record| kind.is(record)));
    let mut rows: Vec<(Kind, usize)> = present
        .flat_map(|&kind| (0..kind.checks().len()).map(move |rank| (kind, rank)))
        .filter(|&(kind, rank)| kind.checks()[rank].is_of_body())
        .collect();
    let number = |&(kind, rank): &(Kind, usize)| kind.checks()[rank].number;
    if random.once_in(2) {
        let mut numbers: Vec<u16> = rows.iter().map(number).collect();
        numbers.sort();
        numbers.dedup();
        let wanted = *random.pick(&numbers);
        rows.retain(|row| number(row) == wanted);
    }
    let (kind, rank) = *random.pick(&rows);
    Fault::somewhere(random, draft, kind, rank)
}

pub fn two_faults_in_one_record(random: &mut Random) -> Case {
    let draft = sound_file(random);
    two_in_one_record(random, draft, &Kind::ALL)
}

/// In a draft with at least one batch, of these kinds.
pub fn two_in_one_record(random: &mut Random, mut draft: Draft, kinds: &[Kind]) -> Case {
    let first = any_fault(random, &draft, kinds);
    let rank = random.below(first.kind.checks().len());
    let way = *random.pick(first.kind.checks()[rank].ways);
    let second = Fault { rank, way, ..first };
    apply_all(random, &mut draft, &[first, second]);
    let earlier = if first.rank < second.rank {
        first
    } else {
        second
    };
    let spoiled = |byte| !CHARACTERS.contains(byte);
    let expected = if draft.records[first.place].iter().any(spoiled) {
        // A bad character comes before all else, wherever it stands.
        refused(17, first.place)
    } else if first.meets(&second) {
        None
    } else {
        earlier.refusal()
    };
    Case::of("two faults in one record", &draft, expected)
}

pub fn two_faults_in_two_records(random: &mut Random) -> Case {
    let draft = sound_file(random);
    two_in_two_records(random, draft, &Kind::ALL)
}

/// As `two_in_one_record`.
pub fn two_in_two_records(random: &mut Random, mut draft: Draft, kinds: &[Kind]) -> Case {
    let first = any_fault(random, &draft, kinds);
    let second = any_fault(random, &draft, kinds);
    apply_all(random, &mut draft, &[first, second]);
    let expected = match first.place.cmp(&second.place) {
        std::cmp::Ordering::Less => first.refusal(),
        std::cmp::Ordering::Greater => second.refusal(),
        std::cmp::Ordering::Equal => None,
    };
    Case::of("two faults in two records", &draft, expected)
}

/// All rows alike half of the time, otherwise all numbers alike.
fn any_fault(random: &mut Random, draft: &Draft, kinds: &[Kind]) -> Fault {
    const NUMBERS: [u16; 11] = [17, 19, 25, 27, 75, 77, 78, 79, 87, 203, 204];
    let number = random.once_in(2).then(|| *random.pick(&NUMBERS));
    loop {
        let kind = *random.pick(kinds);
        let rank = random.below(kind.checks().len());
        let wanted = number.is_none_or(|number| number == kind.checks()[rank].number);
        // A file without additionals cannot have all faults: then another is drawn.
        if wanted && draft.records.iter().any(|record| kind.is(record)) {
            return Fault::somewhere(random, draft, kind, rank);
        }
    }
}

/// Controls are damaged last, so that computing them anew repairs no fault.
fn apply_all(random: &mut Random, draft: &mut Draft, faults: &[Fault]) {
    for fault in faults.iter().filter(|fault| !fault.kind.is_control()) {
        apply(random, draft, fault);
    }
    if !random.once_in(4) {
        draft.settle();
    }
    for fault in faults.iter().filter(|fault| fault.kind.is_control()) {
        apply(random, draft, fault);
    }
}

/// A flag wrongly 0 also comes without its additional.
fn drop_unflagged_additional(random: &mut Random, draft: &mut Draft, place: usize) {
    let unflagged = draft.records[place][0] == b'6' && draft.records[place][78] == b'0';
    let followed = draft
        .records
        .get(place + 1)
        .is_some_and(|next| next[0] == b'7');
    if unflagged && followed && random.once_in(2) {
        draft.records.remove(place + 1);
        draft.settle();
    }
}

fn apply(random: &mut Random, draft: &mut Draft, fault: &Fault) {
    let Check { from, to, .. } = *fault.check();
    match fault.way {
        Way::OtherCurrency => turn_currency(draft, fault.place, from),
        Way::Absent => name_absent(random, draft, fault.place, from),
        Way::OtherAbsent => {
            name_absent(random, draft, fault.place, from);
            turn_currency(draft, fault.place, from);
        }
        Way::Foreign => name_foreign(random, draft, fault.place, from),
        Way::OtherForeign => {
            name_foreign(random, draft, fault.place, from);
            turn_currency(draft, fault.place, from);
        }
        Way::OtherDate | Way::SharedNoDate => change_date(random, draft, fault),
        Way::WrongInformation | Way::FlagMissing => entangle(random, draft, fault),
        Way::CounterEqual | Way::CounterFalling | Way::CounterRepeated | Way::CounterZero => {
            turn_back_counter(random, draft, fault)
        }
        Way::OneMore | Way::OneLess => count_otherwise(draft, fault),
        Way::BlocksRoundedDown => round_blocks_down(draft, fault.place),
        way => spoil_field(random, &mut draft.records[fault.place][from - 1..to], way),
    }
}

/// The ways that need nothing but the field itself.
fn spoil_field(random: &mut Random, field: &mut [u8], way: Way) {
    let index = random.position(1, field.len()) - 1;
    let old = field[index];
    match way {
        Way::Bad => field[index] = bad_byte(random),
        Way::Other => field[index] = random.character_with(|byte| byte != old),
        Way::OtherDigit => {
            field[index] = random.character_with(|byte| byte.is_ascii_digit() && byte != old)
        }
        Way::NotDigit => field[index] = random.character_with(|byte| !byte.is_ascii_digit()),
        Way::OneBlank => field[index] = b' ',
        Way::Blanks => field.fill(b' '),
        Way::Texts(texts) => {
            let text = *random.pick(texts);
            field[..text.len()].copy_from_slice(text);
        }
        Way::LeadingDigit => field[0] = if field[0] == b'9' { b'8' } else { field[0] + 1 },
        Way::BlankPadded => {
            let zeros = field.iter().take_while(|&&byte| byte == b'0').count();
            field[..zeros.max(1)].fill(b' ');
        }
        _ => unreachable!("{way:?} needs more than the field"),
    }
}

/// The seven exceptions and the neighbours of the range often, all others too.
pub fn bad_byte(random: &mut Random) -> u8 {
    loop {
        let any = random.byte();
        let byte = *random.pick(&[
            34, 38, 39, 91, 92, 93, 94, 96, 31, 0, 10, 127, 255, any, any, any,
        ]);
        if !CHARACTERS.contains(&byte) {
            return byte;
        }
    }
}

fn turn_currency(draft: &mut Draft, place: usize, from: usize) {
    let record = &mut draft.records[place];
    let entity = get_number(record, from, from + 3);
    let other = if entity > 500 {
        entity - 500
    } else {
        entity + 500
    };
    put_number(record, from, from + 3, other);
}

/// Strikes an entity that no record of the file names, and names it.
fn name_absent(random: &mut Random, draft: &mut Draft, place: usize, from: usize) {
    let absent = loop {
        let entity = random.between(1, 499);
        if first_use(draft, entity).is_none() {
            break entity;
        }
    };
    draft.rules.roster[absent] = false;
    let number = field_number(draft.rules.currency, absent as u64);
    put_number(&mut draft.records[place], from, from + 3, number);
}

/// Somebody whose number is near, or anybody; the roster stays.
fn name_foreign(random: &mut Random, draft: &mut Draft, place: usize, from: usize) {
    let record = &mut draft.records[place];
    let entity = get_number(record, from, from + 3) as usize % 500;
    let foreign = relation(random, entity.max(1));
    let number = field_number(draft.rules.currency, foreign as u64);
    put_number(record, from, from + 3, number);
}

/// The first place of a record that names the entity, in whichever currency.
pub fn first_use(draft: &Draft, entity: usize) -> Option<usize> {
    let names_it = |named: usize| named == entity || named == entity + 500;
    let mut records = draft.records.iter();
    records.position(|record| named_in(record).is_some_and(names_it))
}

fn change_date(random: &mut Random, draft: &mut Draft, fault: &Fault) {
    let header = &mut draft.records[fault.place];
    if let Way::SharedNoDate = fault.way {
        let date: &[u8] = random.pick::<&[u8]>(NO_DATES);
        put(header, 24, date);
        draft.rules.date = get_number(header, 24, 29);
        return;
    }
    let other = loop {
        let date = any_date(random);
        if date != draft.rules.date {
            break date;
        }
    };
    put_number(header, 24, 29, other);
}

/// Code, information and flag that are good alone but not together.
fn entangle(random: &mut Random, draft: &mut Draft, fault: &Fault) {
    let record = &mut draft.records[fault.place];
    if let Way::WrongInformation = fault.way {
        put(record, 2, *random.pick(&[b"32", b"31"]));
        put(record, 77, b"01");
        return;
    }
    if record[78] == b'0' {
        let (code, information) = *random.pick(&CODES[1..]);
        put(record, 2, code);
        put(record, 77, information);
    } else if &record[1..3] == b"37" && &record[76..78] == b"00" {
        put(record, 77, b"01");
    }
    put(record, 79, b"0");
}

/// A counter that cannot stand at this place, whatever the counters before it are.
fn turn_back_counter(random: &mut Random, draft: &mut Draft, fault: &Fault) {
    let earlier = &draft.records[..fault.place];
    let is_individual = |record: &&Record| record[0] == b'6';
    let in_file: Vec<&Record> = earlier.iter().filter(is_individual).collect();
    let in_batch = earlier.rsplit(|record| record[0] == b'5').next();
    let in_batch = in_batch.unwrap_or(&[]).iter().rfind(is_individual);
    let counter_of = |record: &Record| get_number(record, 88, 94);
    let counter = match (fault.way, in_file.last(), in_batch) {
        (Way::CounterZero, ..) | (_, None, _) => 0,
        (Way::CounterEqual, Some(before), _) => counter_of(before),
        // Across batches a lower counter is good, unless it was there before.
        (Way::CounterFalling, _, Some(before)) => {
            random.below(counter_of(before) as usize + 1) as u64
        }
        _ => counter_of(in_file[random.below(in_file.len())]),
    };
    put_number(&mut draft.records[fault.place], 88, 94, counter);
}

/// One more or one less, going round at the ends of the field.
fn count_otherwise(draft: &mut Draft, fault: &Fault) {
    let Check { from, to, .. } = *fault.check();
    let record = &mut draft.records[fault.place];
    let limit = 10u64.pow((to - from + 1) as u32);
    let step = if let Way::OneMore = fault.way {
        1
    } else {
        limit - 1
    };
    let value = get_number(record, from, to);
    put_number(record, from, to, (value + step) % limit);
}

/// Rounded down, or one too many where nothing is to be rounded.
fn round_blocks_down(draft: &mut Draft, place: usize) {
    let records = place + 1;
    let blocks = if records.is_multiple_of(10) {
        records / 10 + 1
    } else {
        records / 10
    };
    put_number(&mut draft.records[place], 8, 13, blocks as u64);
}

#[cfg(test)]
mod tests {
    use super::*;
    use crate::generate::handed::{handed_with_reasons, Handed};
    use crate::{read, receive, Refusal};

    /// How a file is made, and how it is read.
    struct Reading {
        make: fn(&mut Random) -> Handed,
        read: fn(&Handed) -> Result<usize, Refusal>,
    }

    #[test]
    fn each_fault_of_the_table_gets_its_number() {
        let house = Reading {
            make: |random| Handed {
                draft: sound_file(random),
                entity: 0,
            },
            read: |file| read(&file.draft.rules, &file.draft.bytes()),
        };
        try_all(&Kind::ALL, &house);
    }

    #[test]
    fn each_fault_of_an_extract_gets_its_number() {
        let desk = Reading {
            make: handed_with_reasons,
            read: |file| {
                let draft = &file.draft;
                receive(&draft.rules, file.entity as u64, &draft.bytes())
            },
        };
        try_all(&Kind::HANDED, &desk);
    }

    /// Each way of each check of each kind, at every record of that kind.
    fn try_all(kinds: &[Kind], reading: &Reading) {
        let mut random = Random::new(1, 1);
        for &kind in kinds {
            for (rank, check) in kind.checks().iter().enumerate() {
                for &way in check.ways {
                    for _ in 0..40 {
                        try_everywhere(&mut random, reading, (kind, rank), way);
                    }
                }
            }
        }
    }

    fn try_everywhere(random: &mut Random, reading: &Reading, row: (Kind, usize), way: Way) {
        let (kind, rank) = row;
        let good = (reading.make)(random);
        for place in good.draft.places(|record| kind.is(record)) {
            let fault = Fault {
                kind,
                rank,
                way,
                place,
            };
            let mut file = good.clone();
            apply_all(random, &mut file.draft, &[fault]);
            let answer = Some((reading.read)(&file));
            assert_eq!(answer, fault.refusal(), "{kind:?}, check {rank}, {way:?}");
        }
    }
}

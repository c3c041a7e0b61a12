//! Files that agree, collide, are refused and come back repaired, as one day presents them.

use super::case::{accepted, refused, Answer};
use super::copies::damaged_copy;
use super::draft::{get_number, Draft};
use super::entities::{named_in, other_currency, put_origin, relation, some_entities};
use super::good::{any_date, long_file, small_file};
use super::numbering::renumber_some;
use super::opening::Opened;
use super::random::Random;
use crate::day::Day;
use crate::{Refusal, Rules};
use std::collections::BTreeSet;

/// One day, with the answers that were meant where they are known.
pub struct DayCase {
    pub family: &'static str,
    pub day: Day,
    pub opening: Result<(), Refusal>,
    pub presented: Vec<Presented>,
}

pub struct Presented {
    pub kind: &'static str,
    pub meant: Option<Result<(), Refusal>>,
}

pub const IDENTIFIERS: &[u8; 36] = b"0123456789ABCDEFGHIJKLMNOPQRSTUVWXYZ";

/// Entity digits of the origin, and identifier, as they stand in the header.
type Key = (Vec<u8>, u8);

fn key(file: &[u8]) -> Option<Key> {
    Some((file.get(14..18)?.to_vec(), *file.get(33)?))
}

pub struct Desk<'r> {
    pub random: &'r mut Random,
    /// What the session goes by.
    rules: Rules,
    /// Whom the day's files name.
    members: Vec<usize>,
    family: &'static str,
    opening: Result<(), Refusal>,
    day: Day,
    presented: Vec<Presented>,
    accepted: BTreeSet<Key>,
    /// Keys of files whose answer is not known here.
    doubtful: BTreeSet<Key>,
    /// Files presented so far that suit the session, to be repeated.
    earlier: Vec<Draft>,
    /// Good files of which only a damaged copy was presented.
    unrepaired: Vec<Draft>,
}

impl<'r> Desk<'r> {
    pub fn new(random: &'r mut Random, opened: Opened) -> Self {
        let members = members(random, &opened.opening.entities);
        Desk {
            random,
            rules: opened.rules,
            members,
            family: opened.family,
            opening: opened.answer,
            day: Day::new(opened.opening),
            presented: Vec::new(),
            accepted: BTreeSet::new(),
            doubtful: BTreeSet::new(),
            earlier: Vec::new(),
            unrepaired: Vec::new(),
        }
    }

    pub fn close(self) -> DayCase {
        DayCase {
            family: self.family,
            day: self.day,
            opening: self.opening,
            presented: self.presented,
        }
    }

    pub fn next_file(&mut self) {
        match self.random.below(20) {
            0..=4 => self.fresh(),
            5 => self.any_identifier(),
            6..=10 if self.earlier.is_empty() => self.fresh(),
            6 => self.same_file_again(),
            7 => self.same_identifier(),
            8 => self.other_branch(),
            9 | 10 => self.other_origin(),
            11..=13 => self.damaged(),
            14..=16 if self.unrepaired.is_empty() => self.fresh(),
            14..=16 => self.repaired(),
            17 if self.earlier.is_empty() => self.damaged(),
            17 => self.damaged_repeat(),
            18 => self.unsuited(),
            _ => self.no_file(),
        }
    }

    /// The origin has not used this identifier yet.
    fn fresh(&mut self) {
        let draft = self.fresh_draft();
        self.present_good("fresh", draft);
    }

    fn any_identifier(&mut self) {
        let draft = self.draft();
        self.present_good("any identifier", draft);
    }

    fn same_file_again(&mut self) {
        let draft = self.earlier_draft();
        self.present_good("same file again", draft);
    }

    /// Another file of the same origin and branch.
    fn same_identifier(&mut self) {
        let earlier = self.earlier_draft();
        let mut draft = self.draft();
        draft.records[0][14..22].copy_from_slice(&earlier.records[0][14..22]);
        draft.records[0][33] = earlier.records[0][33];
        self.present_good("same identifier", draft);
    }

    /// The branch is no part of the key, so this is used up as well.
    fn other_branch(&mut self) {
        let earlier = self.earlier_draft();
        let mut draft = match self.random.below(2) {
            0 => earlier.clone(),
            _ => self.draft(),
        };
        draft.records[0][14..18].copy_from_slice(&earlier.records[0][14..18]);
        draft.records[0][33] = earlier.records[0][33];
        for index in 18..22 {
            draft.records[0][index] = self.random.digit();
        }
        self.present_good("other branch", draft);
    }

    /// The same identifier, often the same file, from somebody else.
    fn other_origin(&mut self) {
        let mut draft = self.earlier_draft();
        let origin = get_number(&draft.records[0], 15, 18) as usize % 500;
        let related = relation(self.random, origin);
        let member = *self.random.pick(&self.members);
        let other = if self.rules.roster[related] {
            related
        } else {
            member
        };
        if self.random.once_in(2) {
            let identifier = draft.records[0][33];
            draft = self.file_from(other, identifier);
        } else {
            put_origin(self.random, &mut draft, other);
        }
        self.present_good("other origin", draft);
    }

    fn damaged(&mut self) {
        let draft = self.fresh_draft();
        self.present_damaged(&draft);
        if self.random.once_in(4) {
            // Nothing but the repaired file comes between the two.
            self.present_good("repaired", draft);
        } else {
            self.unrepaired.push(draft);
        }
    }

    /// A refused file has used up no identifier.
    fn repaired(&mut self) {
        let index = self.random.below(self.unrepaired.len());
        let draft = self.unrepaired.swap_remove(index);
        self.present_good("repaired", draft);
    }

    /// The reading's refusal comes before that of a used identifier.
    fn damaged_repeat(&mut self) {
        let draft = self.earlier_draft();
        self.present_damaged(&draft);
    }

    /// A good file for a session of another date, currency or roster.
    fn unsuited(&mut self) {
        let mut rules = self.rules.clone();
        let mut members = self.members.clone();
        let kinds = self.random.between(1, 7);
        if kinds & 1 != 0 {
            rules.date = any_date(self.random);
        }
        if kinds & 2 != 0 {
            rules.currency = other_currency(rules.currency);
        }
        if kinds & 4 != 0 {
            members.push(self.random.between(1, 499));
        }
        let draft = small_file(self.random, &rules, &members);
        self.present_good("unsuited", draft);
    }

    fn no_file(&mut self) {
        let mut file = self.draft().bytes();
        let drawn = self.random.below(400);
        match self.random.below(3) {
            0 => file.truncate(drawn),
            1 => file.extend((0..drawn % 94 + 1).map(|_| b' ')),
            _ => file = (0..drawn).map(|_| self.random.byte()).collect(),
        }
        self.present("no file", &file, None);
    }

    /// Small for the most part, so that thousands of days run in seconds.
    fn draft(&mut self) -> Draft {
        let mut draft = if self.random.once_in(150) {
            let records = self.random.between(50, 400);
            long_file(self.random, &self.rules, &self.members, records)
        } else {
            small_file(self.random, &self.rules, &self.members)
        };
        renumber_some(self.random, &mut draft);
        draft
    }

    pub fn file_from(&mut self, origin: usize, identifier: u8) -> Draft {
        let mut draft = small_file(self.random, &self.rules, &self.members);
        renumber_some(self.random, &mut draft);
        put_origin(self.random, &mut draft, origin);
        draft.records[0][33] = identifier;
        draft
    }

    fn fresh_draft(&mut self) -> Draft {
        let mut draft = self.draft();
        // An origin may have none left; then the draft keeps what it drew last.
        for _ in 0..100 {
            if key(&draft.records[0]).is_some_and(|key| !self.accepted.contains(&key)) {
                break;
            }
            draft.records[0][33] = *self.random.pick(IDENTIFIERS);
        }
        draft
    }

    fn earlier_draft(&mut self) -> Draft {
        self.random.pick(&self.earlier).clone()
    }

    pub fn present_good(&mut self, kind: &'static str, draft: Draft) {
        let answer = reading_of(&draft, &self.rules);
        self.present(kind, &draft.bytes(), answer);
        if matches!(answer, Some(Ok(_))) {
            self.earlier.push(draft);
        }
    }

    pub fn present_damaged(&mut self, good: &Draft) {
        let suits = matches!(reading_of(good, &self.rules), Some(Ok(_)));
        let (kind, file, answer) = damaged_copy(self.random, good);
        // In a file that is refused anyway another fault may come first.
        self.present(kind, &file, answer.filter(|_| suits));
    }

    /// Presents a file whose reading is meant to give this answer.
    fn present(&mut self, kind: &'static str, file: &[u8], reading: Answer) {
        let meant = match (reading, key(file)) {
            (Some(Err(refusal)), _) => Some(Err(refusal)),
            (Some(Ok(_)), Some(key)) => self.meant_by_key(key),
            (_, key) => {
                self.doubtful.extend(key);
                None
            }
        };
        self.day.push(file);
        self.presented.push(Presented { kind, meant });
    }

    fn meant_by_key(&mut self, key: Key) -> Option<Result<(), Refusal>> {
        let doubtful = self.doubtful.remove(&key);
        let fresh = self.accepted.insert(key);
        match (fresh, doubtful) {
            (false, _) => Some(Err(Refusal {
                number: 209,
                place: 0,
            })),
            (true, true) => None,
            (true, false) => Some(Ok(())),
        }
    }
}

/// Few, so that they meet often; now and then everybody on the list.
fn members(random: &mut Random, asked_for: &[u64]) -> Vec<usize> {
    // Also after a refused opening: those asked for are then on no roster.
    let entities = asked_for.iter().map(|&entity| entity as usize);
    let known: Vec<usize> = entities
        .filter(|entity| (1..500).contains(entity))
        .collect();
    if known.is_empty() {
        return some_entities(random);
    }
    if random.once_in(6) {
        return known;
    }
    (0..*random.pick(&[1, 3, 4, 6, 8]))
        .map(|_| *random.pick(&known))
        .collect()
}

/// The answer to a good file from a session with other rules than those it was made for.
fn reading_of(draft: &Draft, rules: &Rules) -> Answer {
    if get_number(&draft.records[0], 24, 29) != rules.date {
        return refused(75, 0);
    }
    if draft.rules.currency != rules.currency {
        return refused(203, 0);
    }
    // 500 more in dollars; no entity has the number 500.
    let is_stranger = |named: usize| !rules.roster[named % 500];
    let mut records = draft.records.iter();
    match records.position(|record| named_in(record).is_some_and(is_stranger)) {
        Some(place) => refused(204, place),
        None => accepted(draft),
    }
}

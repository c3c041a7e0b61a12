//! Queues: many members that present files in one session, in turn.

use super::desk::IDENTIFIERS;
use super::draft::put;
use super::entities::entity_field;
use super::good::{any_date, long_file};
use super::opening::{accepted, everybody, shuffle};
use super::random::Random;
use crate::day::{Day, Opening};
use crate::{Currency, Rules};

/// So many members, each with files under so many identifiers, all of so many records.
#[derive(Clone, Copy)]
pub struct Group {
    pub members: usize,
    pub files: usize,
    pub records: usize,
}

/// One member's files; all of them are good, and wait for their header to name origin and identifier.
struct Member<'f> {
    origin: [u8; 8],
    files: &'f [Vec<u8>],
    /// Which file is the first: members that share their files do not present the same one after another.
    first: usize,
}

/// In pesos, with everybody on the roster: the files of all members, by identifier and then by member.
pub fn queue(random: &mut Random, groups: &[Group]) -> Day {
    let opening = Opening {
        date: any_date(random),
        currency: Currency::Pesos,
        entities: everybody(),
    };
    let rules = accepted("queue", opening.clone()).rules;
    let files: Vec<Vec<Vec<u8>>> = groups
        .iter()
        .map(|group| shared_files(random, &rules, group))
        .collect();
    let members = members(random, groups, &files);
    let mut day = Day::new(opening);
    for (number, &identifier) in IDENTIFIERS.iter().enumerate() {
        for member in &members {
            if number < member.files.len() {
                day.push(&member.file(number, identifier));
            }
        }
    }
    day
}

/// As many files as each member presents, made once for all members of a group.
fn shared_files(random: &mut Random, rules: &Rules, group: &Group) -> Vec<Vec<u8>> {
    let everybody: Vec<usize> = (1..500).collect();
    (0..group.files)
        .map(|_| long_file(random, rules, &everybody, group.records).bytes())
        .collect()
}

/// Each an origin of its own.
fn members<'f>(
    random: &mut Random,
    groups: &[Group],
    files: &'f [Vec<Vec<u8>>],
) -> Vec<Member<'f>> {
    let mut origins: Vec<usize> = (1..500).collect();
    shuffle(random, &mut origins);
    let firsts = groups.iter().zip(files);
    let firsts =
        firsts.flat_map(|(group, files)| (0..group.members).map(move |first| (files, first)));
    let members = firsts.zip(origins);
    members
        .map(|((files, first), origin)| Member {
            origin: entity_field(random, Currency::Pesos, origin),
            files,
            first,
        })
        .collect()
}

impl Member<'_> {
    fn file(&self, number: usize, identifier: u8) -> Vec<u8> {
        let mut file = self.files[(self.first + number) % self.files.len()].clone();
        put(&mut file, 15, &self.origin);
        put(&mut file, 34, &[identifier]);
        file
    }
}

//! Generated days: what was meant, and what holds on every day.

use second::generate::day::generate_day;
use second::generate::queue::{queue, Group};
use second::generate::random::Random;
use second::posting::postings;
use second::{Refusal, Session};

const DAYS: u64 = 1_500;

#[test]
fn files_get_the_answers_meant() {
    for number in 0..DAYS {
        let case = generate_day(5, number);
        let outcome = case.day.run();
        assert_eq!(outcome.opening, case.opening, "day {number}");
        assert_eq!(outcome.answers.len(), case.presented.len());
        for (index, presented) in case.presented.iter().enumerate() {
            let name = format!("day {number}, file {index}, {}", presented.kind);
            let answer = outcome.answers[index];
            assert_eq!(answer, presented.meant.unwrap_or(answer), "{name}");
        }
    }
}

#[test]
fn positions_add_up_to_zero_and_counts_alike() {
    for number in 0..DAYS {
        let day = generate_day(6, number).day;
        let outcome = day.run();
        let accepted = day.files().zip(&outcome.answers);
        let individuals: usize = accepted
            .filter(|(_, answer)| answer.is_ok())
            .map(|(file, _)| file.chunks(94).filter(|record| record[0] == b'6').count())
            .sum();
        let cells = outcome.cells.iter();
        let sent: u64 = cells.clone().map(|cell| cell.sent).sum();
        let received: u64 = cells.clone().map(|cell| cell.received).sum();
        assert_eq!(cells.map(|cell| cell.position).sum::<i64>(), 0);
        assert_eq!((sent, received), (individuals as u64, individuals as u64));
    }
}

#[test]
fn a_refused_file_changes_nothing() {
    for number in 0..DAYS {
        let day = generate_day(7, number).day;
        let opening = &day.opening;
        let (_, mut session) = Session::open(opening.date, opening.currency, &opening.entities);
        for file in day.files() {
            let before = session.clone();
            match session.present(file) {
                Ok(()) => assert_ne!(session, before, "an identifier is used up"),
                Err(_) => assert_eq!(session, before),
            }
        }
    }
}

/// All files of a day once more: what was refused is refused alike, and nothing is posted.
#[test]
fn whatever_was_accepted_is_209_when_it_comes_again() {
    for number in 0..DAYS {
        let mut day = generate_day(8, number).day;
        let first = day.run();
        let files: Vec<Vec<u8>> = day.files().map(<[u8]>::to_vec).collect();
        files.iter().for_each(|file| day.push(file));
        let again = day.run();
        assert_eq!(first.cells, again.cells);
        for (answer, repeated) in first.answers.iter().zip(&again.answers[files.len()..]) {
            let used = Err(Refusal {
                number: 209,
                place: 0,
            });
            assert_eq!(*repeated, if answer.is_ok() { used } else { *answer });
        }
    }
}

#[test]
fn days_reach_all_that_they_are_made_for() {
    let (mut kept, mut senders, mut alone) = (0, 0, 0);
    for number in 0..DAYS {
        let case = generate_day(9, number);
        let outcome = case.day.run();
        for ((file, answer), presented) in
            case.day.files().zip(&outcome.answers).zip(&case.presented)
        {
            kept += u64::from(presented.kind == "repaired" && answer.is_ok());
            if answer.is_ok() {
                let origin = file[14..18].to_vec();
                let batches = file.chunks(94).filter(|record| record[0] == b'5');
                senders += batches.filter(|batch| batch[79..83] != origin).count();
                let all = postings(file);
                alone += all
                    .iter()
                    .filter(|one| one.sender == one.destination)
                    .count();
            }
        }
    }
    assert!(
        kept > 300 && senders > 300 && alone > 300,
        "{kept} {senders} {alone}"
    );
}

/// Every file is good and of its length, and comes from another origin than the file before it.
#[test]
fn a_queue_is_accepted_whole() {
    let group = |members, files, records| Group {
        members,
        files,
        records,
    };
    let day = queue(
        &mut Random::new(8, 0),
        &[group(3, 36, 10), group(2, 5, 100), group(1, 36, 2)],
    );
    let outcome = day.run();
    assert!(outcome.opening.is_ok() && outcome.answers.iter().all(Result::is_ok));
    let files: Vec<&[u8]> = day.files().collect();
    let of_length = |records: usize| {
        files
            .iter()
            .filter(|file| file.len() == 94 * records)
            .count()
    };
    assert_eq!([10, 100, 2].map(of_length), [108, 10, 36]);
    let origin_again = |pair: &[&[u8]]| pair[0][14..18] == pair[1][14..18];
    assert!(!files.windows(2).any(origin_again));
}

//! Receiving, sentence by sentence of ticket 1: the header, the destinations, the batches, the rules that remain, 208.

mod common;

use common::extracts::*;
use common::*;
use second::{receive, Currency, Refusal, Session};

/// The extract for 402 with one change, received by 402.
fn says(place: usize, from: usize, text: &str) -> Result<usize, Refusal> {
    receive(&members(), 402, &handed_with(place, from, text))
}

/// The same with a wrong date in the header, which is 75 where no fault comes before.
fn says_before_date(from: usize, text: &str) -> Result<usize, Refusal> {
    let mut records = handed();
    put(&mut records[HEADER], 24, "240228");
    put(&mut records[HEADER], from, text);
    receive(&members(), 402, &records.concat())
}

#[test]
fn the_extract_is_received() {
    assert_eq!(receive(&members(), 402, &handed().concat()), Ok(RECORDS));
}

/// "Every extract must read as accepted in the session it was made in."
#[test]
fn every_extract_of_case_l_is_received() {
    let (_, session) = Session::open(240_229, Currency::Pesos, &[401, 402, 403, 404]);
    let file = listing().concat();
    for (entity, records) in [(401, 6), (402, 5), (403, 5), (404, 2)] {
        let mut out = [0; 940];
        let length = session.extract(entity, &file, &mut out).unwrap();
        assert_eq!(length, 94 * records);
        let extract = &out[..length];
        assert_eq!(receive(session.rules(), entity, extract), Ok(records));
        for other in (401..=404).filter(|&other| other != entity) {
            let answer = receive(session.rules(), other, extract);
            assert_eq!(answer, refused(17, 0), "{other} opens that of {entity}");
        }
    }
}

#[test]
fn in_dollars() {
    let mut file = IN_DOLLARS.file();
    put(&mut file, 4, " 099900000 000000010");
    assert_eq!(receive(&rules(Currency::Dollars), 499, &file), Ok(6));
    assert_eq!(
        receive(&rules(Currency::Dollars), 498, &file),
        refused(17, 0)
    );
    assert_eq!(
        receive(&rules(Currency::Dollars), 999, &file),
        refused(208, 0)
    );
    // The same number in the other session is another desk's header.
    assert_eq!(receive(&rules(Currency::Pesos), 499, &file), refused(17, 0));
}

#[test]
fn header_and_control_only() {
    let mut file = empty_file("04010001");
    file[..94].copy_from_slice(&handed_header());
    assert_eq!(receive(&members(), 402, &file), Ok(2));
}

/// "header positions 4-13 hold the desk's own entity with branch 0000": its form first, whose it is in the place of 204.
#[test]
fn another_desks_header_is_17_where_204_was() {
    // On the roster, not on it, in dollars, no entities, and another branch.
    let others = [
        "04010000", "04030000", "04050000", "09020000", "09010000", "00000000", "05000000",
        "10000000", "99999999", "04020001", "04021000", "04029999",
    ];
    for other in others {
        assert_eq!(says(HEADER, 5, other), refused(17, 0), "{other}");
        assert_eq!(says_before_date(5, other), refused(75, 0), "{other}");
    }
    for (from, text) in [
        (4, "0"),
        (13, "1"),
        (13, " "),
        (5, " "),
        (8, "A"),
        (12, " "),
    ] {
        assert_eq!(says(HEADER, from, text), refused(17, 0), "{from}");
        assert_eq!(says_before_date(from, text), refused(17, 0), "{from}");
    }
    assert_eq!(says_before_date(5, "0402"), refused(75, 0));
}

/// "14-23 are free eight digits in their frame".
#[test]
fn any_eight_digits_are_an_origin() {
    for origin in [
        "00000000", "99999999", "05000000", "04020000", "09010001", "04990000", "10000001",
    ] {
        assert_eq!(says(HEADER, 15, origin), Ok(RECORDS), "{origin}");
    }
    for (from, text) in [
        (14, "0"),
        (23, "1"),
        (23, " "),
        (15, " "),
        (18, "A"),
        (22, " "),
    ] {
        assert_eq!(says(HEADER, from, text), refused(17, 0), "{from}");
        assert_eq!(says_before_date(from, text), refused(17, 0), "{from}");
    }
}

/// The rest of the header is 01's.
#[test]
fn date_time_and_identifier() {
    assert_eq!(says(HEADER, 24, "240228"), refused(75, 0));
    assert_eq!(says(HEADER, 24, "240230"), refused(75, 0));
    assert_eq!(says(HEADER, 30, "2359"), Ok(RECORDS));
    let wrong = [(2, "10"), (30, "2400"), (30, " 100"), (34, "a"), (34, " ")];
    for (from, text) in wrong.into_iter().chain([(35, "094102")]) {
        assert_eq!(says(HEADER, from, text), refused(17, 0), "{from}");
    }
    let names = "NAMES OF HOUSE AND MEMBER, IN WHICHEVER ORDER";
    assert_eq!(says(HEADER, 41, names), Ok(RECORDS));
}

/// "all destinations are the desk's entity", at any branch; a foreign one is 17 in the place of 204.
#[test]
fn foreign_destinations_are_17() {
    // 401 is on the roster, 405 is not: neither is 204.
    for foreign in ["0401", "0403", "0405", "0001", "0499"] {
        for place in [ORDER, 7, 9] {
            assert_eq!(says(place, 4, foreign), refused(17, place), "{foreign}");
        }
    }
    for no_entity in ["0000", "0500", "1000", "04 2", "    "] {
        assert_eq!(says(ORDER, 4, no_entity), refused(17, ORDER));
    }
    // The branch is not judged; the controls then differ.
    assert_eq!(says(ORDER, 8, "0000"), refused(17, 5));
}

#[test]
fn a_destination_of_the_other_currency_is_203() {
    for other in ["0902", "0901", "0905", "0501", "0999"] {
        assert_eq!(says(ORDER, 4, other), refused(203, ORDER), "{other}");
    }
}

/// The code comes before the destination, and 77 behind it.
#[test]
fn the_place_of_a_foreign_destination() {
    let twice = |other: (usize, &str), destination: &str| {
        let mut records = handed();
        put(&mut records[ORDER], other.0, other.1);
        put(&mut records[ORDER], 4, destination);
        receive(&members(), 402, &records.concat())
    };
    assert_eq!(twice((2, "33"), "0902"), refused(17, ORDER));
    for behind in [(12, "1"), (13, " "), (30, "0000000000"), (77, "02")] {
        assert_eq!(twice(behind, "0401"), refused(17, ORDER));
        assert_eq!(twice(behind, "0405"), refused(17, ORDER));
        assert_eq!(twice(behind, "0902"), refused(203, ORDER));
    }
}

/// "batches run 1, 2, ..": a wrong number is 17 in the place of the digits check.
#[test]
fn wrong_batch_numbers_are_17() {
    for wrong in [
        "0000000", "0000002", "0000010", "1000000", "9999999", "000001 ", " 000001",
    ] {
        assert_eq!(says(FIRST_BATCH, 88, wrong), refused(17, FIRST_BATCH));
    }
    for wrong in ["0000000", "0000001", "0000003", "0000020", "       "] {
        assert_eq!(says(SECOND_BATCH, 88, wrong), refused(17, SECOND_BATCH));
    }
    // The control repeats its header's number.
    assert_eq!(says(5, 88, "0000002"), refused(17, 5));
}

/// Its place is the last of the batch header: behind the sender's 203 and 204, and before the next record.
#[test]
fn the_place_of_a_wrong_batch_number() {
    let mut records = handed();
    put(&mut records[FIRST_BATCH], 88, "0000002");
    put(&mut records[ORDER], 2, "33");
    let number = |from: usize, text: &str| {
        let mut records = records.clone();
        put(&mut records[FIRST_BATCH], from, text);
        receive(&members(), 402, &records.concat())
    };
    assert_eq!(number(2, "200"), refused(17, FIRST_BATCH));
    assert_eq!(number(70, "240230"), refused(75, FIRST_BATCH));
    assert_eq!(number(80, "0901"), refused(203, FIRST_BATCH));
    assert_eq!(number(80, "0405"), refused(204, FIRST_BATCH));
}

/// Batches are numbered over the extract, however many went elsewhere.
#[test]
fn ten_batches_and_the_eleventh() {
    let sums = "0000010004020001000000000001000000000000";
    let mut records = vec![handed_header()];
    for batch in 1..=11 {
        let (number, counter) = (format!("{batch:07}"), format!("04010001{batch:07}"));
        records.push(batch_header("04010001", &number));
        records.push(individual("37", "04020001", "0000000001", "000", &counter));
        records.push(batch_control(sums, "04010001", &number));
    }
    let totals = "000011000004000000110044220011000000000011000000000000";
    records.push(file_control(totals));
    assert_eq!(receive(&members(), 402, &records.concat()), Ok(35));
    for (place, wrong) in [(28, "0000009"), (31, "0000001"), (31, "0000012")] {
        let mut records = records.clone();
        put(&mut records[place], 88, wrong);
        let answer = receive(&members(), 402, &records.concat());
        assert_eq!(answer, refused(17, place));
    }
}

/// "the remaining rules are 01's".
#[test]
fn the_other_rules_are_those_of_the_house() {
    let faults = [
        (FIRST_BATCH, 5, "                ", 17),
        (FIRST_BATCH, 70, "230229", 75),
        (FIRST_BATCH, 80, "0901", 203),
        (FIRST_BATCH, 80, "0405", 204),
        (ORDER, 2, "38", 17),
        (ORDER, 12, "1", 77),
        (ORDER, 13, " ", 78),
        (ORDER, 30, "0000000000", 19),
        (ORDER, 40, "               ", 79),
        (ORDER, 77, "02", 87),
        (ORDER, 80, "04030002", 27),
        (ORDER, 88, "0000000", 27),
        (REJECTION, 79, "0", 25),
        (REJECTION, 88, "0000001", 27),
        (WITH_TEXT, 2, "05", 25),
        (WITH_TEXT, 4, "S", 17),
        (WITH_TEXT, 36, "a", 17),
        (CONCEPT, 84, " ", 17),
        (CONCEPT, 88, "0000011", 25),
        (11, 33, "000000000058", 17),
        (FILE_CONTROL, 8, "000001", 17),
    ];
    for (place, from, text, number) in faults {
        let answer = says(place, from, text);
        assert_eq!(answer, refused(number, place), "{place}, {from}");
    }
}

#[test]
fn lengths_and_order() {
    let file = handed().concat();
    for length in [0, 93, 94, 187, 189, file.len() - 1] {
        assert_eq!(receive(&members(), 402, &file[..length]), refused(201, 0));
    }
    assert_eq!(receive(&members(), 402, &file[..188]), refused(17, 2));
    assert_eq!(
        receive(&members(), 402, &vec![b' '; 940_094]),
        refused(201, 0)
    );
    let mut records = handed();
    records.remove(WITH_TEXT);
    let answer = receive(&members(), 402, &records.concat());
    assert_eq!(answer, refused(25, WITH_TEXT));
    let mut records = handed();
    records.insert(ORDER + 1, records[CONCEPT]);
    let answer = receive(&members(), 402, &records.concat());
    assert_eq!(answer, refused(25, ORDER + 1));
}

/// "208 as in extracting, first".
#[test]
fn no_entity_is_208_before_all_else() {
    let file = handed().concat();
    let cut = [16, 32, 63].map(|bits| 402 + (1 << bits));
    let nobody = [0, 500, 902, 999, u64::MAX];
    // Not on the roster, or no number of an entity.
    for entity in [1, 400, 405, 499].into_iter().chain(nobody).chain(cut) {
        for file in [file.as_slice(), &file[..187], &[]] {
            assert_eq!(receive(&members(), entity, file), refused(208, 0));
        }
    }
    let mut everybody = members();
    everybody.roster = [true; 500];
    for entity in [1, 499] {
        assert_eq!(receive(&everybody, entity, &file), refused(17, 0));
    }
    for entity in nobody {
        assert_eq!(receive(&everybody, entity, &file), refused(208, 0));
    }
}

#[test]
fn after_a_refused_opening_nobody_receives() {
    for (date, entities) in [(230_229, [401, 402]), (240_229, [402, 500])] {
        let (answer, session) = Session::open(date, Currency::Pesos, &entities);
        assert!(answer.is_err());
        let answer = receive(session.rules(), 402, &handed().concat());
        assert_eq!(answer, refused(208, 0));
    }
}

/// What a member presents is no extract, and an extract is in general nothing that a member may present.
#[test]
fn each_reader_takes_its_own() {
    let (house, desk) = (listing().concat(), handed().concat());
    for entity in 401..=404 {
        assert_eq!(receive(&members(), entity, &house), refused(17, 0));
    }
    assert_eq!(second::read(&members(), &desk), refused(17, 0));
    // With an origin it is both.
    let both = handed_with(HEADER, 15, "04010001");
    assert_eq!(second::read(&members(), &both), Ok(RECORDS));
    assert_eq!(receive(&members(), 402, &both), Ok(RECORDS));
}

/// "Positions are not posted from extracts": and no identifier is used up.
#[test]
fn receiving_leaves_the_session() {
    let (_, mut session) = Session::open(240_229, Currency::Pesos, &[401, 402, 403]);
    let both = handed_with(HEADER, 15, "04010001");
    let before = session.clone();
    for _ in 0..2 {
        assert_eq!(receive(session.rules(), 402, &both), Ok(RECORDS));
        assert_eq!(session, before);
    }
    assert_eq!(session.present(&both), Ok(()));
    assert_eq!(receive(session.rules(), 402, &both), Ok(RECORDS));
}

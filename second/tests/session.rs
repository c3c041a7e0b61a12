//! Opening and presenting, with figures worked out by hand from document 01.

mod common;

use common::*;
use second::{Cell, Currency, Refusal, Session};

const THREE: [u64; 3] = [401, 402, 403];

const ORDER: Single = Single {
    origin: "04010001",
    identifier: "A",
    sender: "04010001",
    code: "37",
    destination: "04020001",
    amount: 100,
};

fn opened(entities: &[u64]) -> Session {
    let (answer, session) = Session::open(240_229, Currency::Pesos, entities);
    assert_eq!(answer, Ok(()));
    session
}

fn no(number: u16, place: usize) -> Result<(), Refusal> {
    Err(Refusal { number, place })
}

fn cell(position: i64, sent: u64, received: u64) -> Cell {
    Cell {
        position,
        sent,
        received,
    }
}

/// The refusal leaves the session as it was.
fn refuses(session: &mut Session, file: &[u8], number: u16, place: usize) {
    let before = session.clone();
    assert_eq!(session.present(file), no(number, place));
    assert_eq!(*session, before);
}

#[test]
fn a_new_session_holds_zeros() {
    // Unordered, with repeats, with both ends.
    let session = opened(&[499, 1, 403, 1, 401, 499]);
    assert_eq!(session.rules().date, 240_229);
    assert_eq!(session.rules().currency, Currency::Pesos);
    for entity in 0..500 {
        let listed = matches!(entity, 1 | 401 | 403 | 499);
        assert_eq!(session.rules().roster[entity], listed);
        assert_eq!(session.cell(entity), cell(0, 0, 0));
    }
}

#[test]
fn an_empty_list_is_good() {
    let mut session = opened(&[]);
    refuses(&mut session, &ORDER.file(), 204, 0);
}

#[test]
fn opening_on_each_kind_of_date() {
    for date in [101, 229, 240_229, 960_229, 991_231, 430] {
        let (answer, session) = Session::open(date, Currency::Dollars, &THREE);
        assert_eq!(answer, Ok(()));
        assert_eq!(session.rules().date, date);
        assert_eq!(session.rules().currency, Currency::Dollars);
    }
    let unspelled = [
        1_000_101,
        1_240_229,
        20_240_229,
        (1 << 32) + 240_229,
        u64::MAX,
    ];
    let spelled = [0, 1, 100, 230_229, 431, 240_230, 1_301, 240_100, 999_999];
    for date in spelled.into_iter().chain(unspelled) {
        let (answer, session) = Session::open(date, Currency::Dollars, &THREE);
        assert_eq!(answer, no(75, 0), "{date}");
        is_of_refused_opening(session);
    }
}

#[test]
fn opening_with_each_kind_of_number() {
    for number in [0, 500, 501, 999, 65_937, (1 << 32) + 401, u64::MAX] {
        for list in [vec![number], vec![number, 401], vec![401, 402, number]] {
            let (answer, session) = Session::open(240_229, Currency::Dollars, &list);
            assert_eq!(answer, no(208, 0), "{list:?}");
            is_of_refused_opening(session);
        }
    }
}

#[test]
fn a_bad_date_comes_before_a_bad_number() {
    let (answer, session) = Session::open(230_229, Currency::Pesos, &[500]);
    assert_eq!(answer, no(75, 0));
    is_of_refused_opening(session);
}

/// 000101, pesos, nobody; and it reads by that.
fn is_of_refused_opening(mut session: Session) {
    assert_eq!(session.rules().date, 101);
    assert_eq!(session.rules().currency, Currency::Pesos);
    assert_eq!(session.rules().roster, [false; 500]);
    assert_eq!(*session.cells(), [Cell::default(); 500]);
    refuses(&mut session, &ORDER.file(), 75, 0);
    let mut file = ORDER.file();
    put(&mut file, 24, "000101");
    refuses(&mut session, &file, 204, 0);
    put(&mut file, 15, "0901");
    refuses(&mut session, &file, 203, 0);
}

#[test]
fn case_2_positions_of_the_listing() {
    let mut session = opened(&THREE);
    assert_eq!(session.present(&listing().concat()), Ok(()));
    assert_eq!(session.cell(401), cell(60_000, 2, 1));
    assert_eq!(session.cell(402), cell(-12_500, 0, 1));
    assert_eq!(session.cell(403), cell(-47_500, 1, 1));
    for entity in (0..500).filter(|entity| !THREE.contains(&(*entity as u64))) {
        assert_eq!(session.cell(entity), cell(0, 0, 0));
    }
}

#[test]
fn case_3_presented_twice() {
    let mut session = opened(&THREE);
    let file = listing().concat();
    assert_eq!(session.present(&file), Ok(()));
    refuses(&mut session, &file, 209, 0);
    refuses(&mut session, &file, 209, 0);
}

#[test]
fn header_and_control_only_uses_up_its_identifier() {
    let file = empty_file("04010001");
    let mut session = opened(&THREE);
    assert_eq!(session.present(&file), Ok(()));
    assert_eq!(*session.cells(), [Cell::default(); 500]);
    refuses(&mut session, &file, 209, 0);
}

#[test]
fn the_key_leaves_out_the_branch() {
    let mut session = opened(&THREE);
    assert_eq!(session.present(&ORDER.file()), Ok(()));
    let other_branch = Single {
        origin: "04019999",
        sender: "04030001",
        ..ORDER
    };
    refuses(&mut session, &other_branch.file(), 209, 0);
}

#[test]
fn another_origin_has_identifiers_of_its_own() {
    let mut session = opened(&THREE);
    for origin in ["04010001", "04020001", "04030001"] {
        let single = Single { origin, ..ORDER };
        assert_eq!(session.present(&single.file()), Ok(()));
        refuses(&mut session, &single.file(), 209, 0);
    }
    // The sender is the batch header's each time, not the origin.
    assert_eq!(session.cell(401), cell(300, 3, 0));
    assert_eq!(session.cell(402), cell(-300, 0, 3));
    assert_eq!(session.cell(403), cell(0, 0, 0));
}

#[test]
fn an_origin_has_36_identifiers() {
    let mut session = opened(&THREE);
    let identifiers: Vec<String> = ('0'..='9').chain('A'..='Z').map(String::from).collect();
    assert_eq!(identifiers.len(), 36);
    let file = |identifier| {
        let single = Single {
            identifier,
            ..ORDER
        };
        single.file()
    };
    for identifier in &identifiers {
        assert_eq!(session.present(&file(identifier)), Ok(()));
    }
    for identifier in &identifiers {
        refuses(&mut session, &file(identifier), 209, 0);
    }
    refuses(&mut session, &file("a"), 17, 0);
    refuses(&mut session, &file(" "), 17, 0);
    assert_eq!(session.cell(401), cell(3_600, 36, 0));
    assert_eq!(session.cell(402), cell(-3_600, 0, 36));
}

#[test]
fn a_refused_file_uses_up_no_identifier() {
    let mut session = opened(&THREE);
    let file = listing().concat();
    // The last digit of all sums: everything else was read and found good.
    let damaged = changed(9, 55, "1").concat();
    refuses(&mut session, &damaged, 17, 9);
    refuses(&mut session, &file[..9 * 94], 17, 9);
    refuses(&mut session, &file[..939], 201, 0);
    assert_eq!(*session.cells(), [Cell::default(); 500]);
    assert_eq!(session.present(&file), Ok(()));
    assert_eq!(session.cell(401), cell(60_000, 2, 1));
}

#[test]
fn the_readings_refusals_come_before_209() {
    let mut session = opened(&THREE);
    assert_eq!(session.present(&listing().concat()), Ok(()));
    let damaged = changed(2, 30, "0000000000").concat();
    refuses(&mut session, &damaged, 19, 2);
    let stranger = changed(3, 4, "0404").concat();
    refuses(&mut session, &stranger, 204, 3);
}

#[test]
fn each_code_pays_its_way() {
    for (code, to_sender) in [("37", 100), ("36", 100), ("32", -100), ("31", -100)] {
        let mut session = opened(&THREE);
        let single = Single { code, ..ORDER };
        assert_eq!(session.present(&single.file()), Ok(()), "{code}");
        assert_eq!(session.cell(401), cell(to_sender, 1, 0), "{code}");
        assert_eq!(session.cell(402), cell(-to_sender, 0, 1), "{code}");
    }
}

#[test]
fn an_entity_may_send_to_itself() {
    for code in ["37", "36", "32", "31"] {
        let mut session = opened(&THREE);
        let single = Single {
            code,
            // Another branch of the same entity.
            destination: "04010077",
            amount: 9_999_999_999,
            ..ORDER
        };
        assert_eq!(session.present(&single.file()), Ok(()));
        assert_eq!(session.cell(401), cell(0, 1, 1));
    }
}

#[test]
fn dollars_stand_in_the_same_cells() {
    let (answer, mut session) = Session::open(240_229, Currency::Dollars, &[1, 499]);
    assert_eq!(answer, Ok(()));
    let single = Single {
        origin: "05010000",
        sender: "09999999",
        destination: "05011234",
        code: "32",
        ..ORDER
    };
    assert_eq!(session.present(&single.file()), Ok(()));
    assert_eq!(session.cell(499), cell(-100, 1, 0));
    assert_eq!(session.cell(1), cell(100, 0, 1));
    refuses(&mut session, &ORDER.file(), 203, 0);
}

#[test]
fn wrong_date_wrong_currency_and_strangers() {
    let mut session = opened(&THREE);
    let mut file = ORDER.file();
    put(&mut file, 24, "240228");
    refuses(&mut session, &file, 75, 0);
    let origin = "09010001";
    refuses(&mut session, &Single { origin, ..ORDER }.file(), 203, 0);
    let origin = "04000001";
    refuses(&mut session, &Single { origin, ..ORDER }.file(), 204, 0);
    let sender = "04000001";
    refuses(&mut session, &Single { sender, ..ORDER }.file(), 204, 1);
    let destination = "04000001";
    let single = Single {
        destination,
        ..ORDER
    };
    refuses(&mut session, &single.file(), 204, 2);
    // None of them has used up identifier A.
    assert_eq!(session.present(&ORDER.file()), Ok(()));
}

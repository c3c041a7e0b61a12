//! Showing reasons, sentence by sentence of ticket 1: from which of the two, which line, and the order of refusals.

mod common;

use common::extracts::*;
use common::*;
use second::{reasons, show, Refusal, Source, Standing};

const LINE: usize = 44;

/// One hundred lines, each unlike the others, of bytes that no file holds.
fn list() -> Vec<u8> {
    (0..100).flat_map(|line| [128 + line; LINE]).collect()
}

fn in_file(record: usize) -> Standing {
    Standing {
        source: Source::File,
        at: 94 * record + 35,
    }
}

fn in_list(line: usize) -> Standing {
    Standing {
        source: Source::Motives,
        at: LINE * line,
    }
}

/// Where the reason for this record of the file stands, once its text was seen to be there, and no copy.
fn stands(file: &[u8], record: u64) -> Result<Standing, Refusal> {
    let motives = list();
    let (standing, text) = show(&members(), 402, file, &motives, record)?;
    let lent = match standing.source {
        Source::File => file,
        Source::Motives => &motives,
    };
    assert!(std::ptr::eq(text, &lent[standing.at..standing.at + LINE]));
    Ok(standing)
}

fn refuses(file: &[u8], record: u64, number: u16, place: usize) {
    assert_eq!(stands(file, record), Err(Refusal { number, place }));
}

/// "the text in positions 36-79 of the additional record if it is not all blank".
#[test]
fn a_text_stands_in_the_file() {
    let file = handed().concat();
    assert_eq!(stands(&file, 4), Ok(in_file(WITH_TEXT)));
    let motives = list();
    let (_, text) = show(&members(), 402, &file, &motives, 4).unwrap();
    assert_eq!(text, TEXT.as_bytes());
}

#[test]
fn one_character_is_a_text() {
    for position in 36..=79 {
        for character in ["0", "_", "."] {
            let file = handed_with(WITHOUT_TEXT, position, character);
            assert_eq!(stands(&file, 8), Ok(in_file(WITHOUT_TEXT)), "{position}");
        }
    }
}

/// "otherwise the 44-byte line for that R number in a motive list of one hundred lines".
#[test]
fn blanks_stand_for_a_line_of_the_list() {
    let file = handed().concat();
    assert_eq!(stands(&file, 8), Ok(in_list(17)));
    for line in 0..100 {
        let file = handed_with(WITHOUT_TEXT, 5, &format!("{line:02}"));
        assert_eq!(stands(&file, 8), Ok(in_list(line)));
    }
    // 35 and 80 are no part of the text.
    let file = handed_with(WITHOUT_TEXT, 28, "99999999");
    assert_eq!(stands(&file, 8), Ok(in_list(17)));
}

/// Both codes have reasons: 36 stands at 3, 31 at 7.
#[test]
fn both_kinds_of_rejection_have_reasons() {
    let blank = handed_with(WITH_TEXT, 36, &" ".repeat(LINE));
    assert_eq!(stands(&blank, 4), Ok(in_list(2)));
    let text = handed_with(WITHOUT_TEXT, 36, TEXT);
    assert_eq!(stands(&text, 8), Ok(in_file(WITHOUT_TEXT)));
}

/// A line is shown whatever it holds.
#[test]
fn the_list_is_not_judged() {
    let file = handed().concat();
    for byte in [0, b' ', b'\n', 255] {
        let motives = [byte; 4_400];
        let (standing, text) = show(&members(), 402, &file, &motives, 8).unwrap();
        assert_eq!((standing, text), (in_list(17), [byte; LINE].as_slice()));
    }
}

/// "214 after it, at 0, when the record asked for is not a rejection's additional record".
#[test]
fn every_other_record_is_214() {
    let file = handed().concat();
    let far = [
        13,
        14,
        4_700,
        1 << 32,
        (1 << 32) + 4,
        (1 << 63) + 4,
        u64::MAX,
    ];
    let others = (0..13).filter(|record| ![4, 8].contains(record));
    for record in others.chain(far) {
        refuses(&file, record, 214, 0);
    }
}

#[test]
fn nothing_to_show_of_header_and_control() {
    let mut file = empty_file("04010001");
    file[..94].copy_from_slice(&handed_header());
    for record in 0..3 {
        refuses(&file, record, 214, 0);
    }
}

/// 208, "207 for a list of another length before the reading, and 214 after it".
#[test]
fn the_order_of_refusals() {
    let good = handed().concat();
    let bad = handed_with(ORDER, 30, "0000000000");
    let whole = list();
    let answer = |entity, file: &[u8], motives: &[u8], record| {
        let shown = show(&members(), entity, file, motives, record);
        let all = reasons(&members(), entity, file, motives);
        let refusal = shown.unwrap_err();
        if refusal.number != 214 {
            assert_eq!(all, Err(refusal), "the same for the whole file");
        }
        (refusal.number, refusal.place)
    };
    for length in [0, 43, 44, 4_356, 4_399, 4_401, 4_444, 8_800] {
        let motives = vec![b' '; length];
        for file in [good.as_slice(), &bad, &bad[..187], &[]] {
            for record in [0, 4, 8, 99] {
                assert_eq!(answer(405, file, &motives, record), (208, 0));
                assert_eq!(answer(0, file, &motives, record), (208, 0));
                assert_eq!(answer(402, file, &motives, record), (207, 0));
                assert_eq!(answer(401, file, &motives, record), (207, 0));
            }
        }
    }
    for record in [0, 4, 8, 99, u64::MAX] {
        assert_eq!(answer(500, &bad, &whole, record), (208, 0));
        assert_eq!(answer(401, &good, &whole, record), (17, 0));
        assert_eq!(answer(402, &bad, &whole, record), (19, ORDER));
        assert_eq!(answer(402, &bad[..187], &whole, record), (201, 0));
    }
    assert_eq!(answer(402, &good, &whole, 2), (214, 0));
}

#[test]
fn all_reasons_at_once() {
    let all = reasons(&members(), 402, &handed().concat(), &list()).unwrap();
    let mut expected = [None; RECORDS];
    expected[WITH_TEXT] = Some(in_file(WITH_TEXT));
    expected[WITHOUT_TEXT] = Some(in_list(17));
    assert_eq!(all, expected);
}

//! Each rule of each kind of record with ways of breaking just that rule.

use super::draft::Record;
use Way::*;

#[derive(Clone, Copy, Debug, PartialEq, Eq)]
pub enum Kind {
    FileHeader,
    BatchHeader,
    Individual,
    /// An additional of type 99.
    Motive,
    /// An additional of type 05.
    Concept,
    BatchControl,
    FileControl,
    /// The next three as a desk receives them.
    HandedFileHeader,
    HandedBatchHeader,
    HandedIndividual,
}

impl Kind {
    pub const ALL: [Kind; 7] = [
        Kind::FileHeader,
        Kind::BatchHeader,
        Kind::Individual,
        Kind::Motive,
        Kind::Concept,
        Kind::BatchControl,
        Kind::FileControl,
    ];

    /// Those whose records a tray holds.
    pub const IN_TRAY: [Kind; 4] = [
        Kind::BatchHeader,
        Kind::Individual,
        Kind::Motive,
        Kind::Concept,
    ];

    /// Those of an extract.
    pub const HANDED: [Kind; 7] = [
        Kind::HandedFileHeader,
        Kind::HandedBatchHeader,
        Kind::HandedIndividual,
        Kind::Motive,
        Kind::Concept,
        Kind::BatchControl,
        Kind::FileControl,
    ];

    pub fn is(self, record: &Record) -> bool {
        match self {
            Kind::FileHeader | Kind::HandedFileHeader => record[0] == b'1',
            Kind::BatchHeader | Kind::HandedBatchHeader => record[0] == b'5',
            Kind::Individual | Kind::HandedIndividual => record[0] == b'6',
            Kind::Motive => record.starts_with(b"799"),
            Kind::Concept => record.starts_with(b"705"),
            Kind::BatchControl => record[0] == b'8',
            Kind::FileControl => record[0] == b'9',
        }
    }

    pub fn is_control(self) -> bool {
        matches!(self, Kind::BatchControl | Kind::FileControl)
    }

    /// This kind's rules in the order in which a record is checked.
    pub fn checks(self) -> &'static [Check] {
        match self {
            Kind::FileHeader => FILE_HEADER,
            Kind::BatchHeader => BATCH_HEADER,
            Kind::Individual => INDIVIDUAL,
            Kind::Motive => MOTIVE,
            Kind::Concept => CONCEPT,
            Kind::BatchControl => BATCH_CONTROL,
            Kind::FileControl => FILE_CONTROL,
            Kind::HandedFileHeader => HANDED_FILE_HEADER,
            Kind::HandedBatchHeader => HANDED_BATCH_HEADER,
            Kind::HandedIndividual => HANDED_INDIVIDUAL,
        }
    }
}

/// One rule: its number, its field, and ways of breaking it.
pub struct Check {
    pub number: u16,
    pub from: usize,
    pub to: usize,
    pub ways: &'static [Way],
}

impl Check {
    /// Its field lies between the type and the number, so that a tray keeps it and its form.
    pub fn is_of_body(&self) -> bool {
        self.from > 1 && self.to < 88
    }
}

#[derive(Clone, Copy, Debug)]
pub enum Way {
    /// One position becomes a byte that is no good character.
    Bad,
    /// One position becomes another good character.
    Other,
    OtherDigit,
    /// One position becomes a good character that is no digit.
    NotDigit,
    OneBlank,
    Blanks,
    /// One of these is written where the field begins.
    Texts(&'static [&'static [u8]]),
    /// The entity field is the same entity's in the other currency.
    OtherCurrency,
    /// The entity field names an entity not on the roster.
    Absent,
    /// Both at once: the currency is judged first.
    OtherAbsent,
    /// The entity field names somebody else than it did, on the roster or not.
    Foreign,
    /// Both at once: somebody else, and in the other currency.
    OtherForeign,
    /// A good date, but not the session's.
    OtherDate,
    /// No date at all, and the session holds the same number.
    SharedNoDate,
    /// "01" with 32 or 31.
    WrongInformation,
    /// No flag where an additional is due.
    FlagMissing,
    /// The counter of the individual record before, in whichever batch.
    CounterEqual,
    /// One that does not exceed that of the record before in the same batch; the first of a batch repeats any.
    CounterFalling,
    /// That of any earlier individual record of the file.
    CounterRepeated,
    CounterZero,
    OneMore,
    OneLess,
    /// The field's first digit is wrong, as if the sum were cut there.
    LeadingDigit,
    /// Blanks in the place of leading zeros.
    BlankPadded,
    BlocksRoundedDown,
}

const fn check(number: u16, from: usize, to: usize, ways: &'static [Way]) -> Check {
    Check {
        number,
        from,
        to,
        ways,
    }
}

const CHARACTERS: Check = check(17, 1, 94, &[Bad]);
const NO_DIGITS: &[Way] = &[NotDigit, OneBlank, Blanks];
const NO_ENTITY: &[Way] = &[
    NotDigit,
    OneBlank,
    Blanks,
    Texts(&[
        b"0000", b"0500", b"1000", b"9999", b"1001", b"1499", b"5001", b"0000", b"0500",
    ]),
];
const NOBODY: Way = Texts(&[b"0000", b"0500", b"1000", b"9999"]);
/// No batch of a file comes this late, or before the first.
const NO_NUMBER: Way = Texts(&[b"0000000", b"1000000", b"9999999"]);
const NO_DATE: &[Way] = &[NotDigit, OneBlank, Blanks, Texts(NO_DATES)];
pub const NO_DATES: &[&[u8]] = &[
    b"230229", b"010229", b"990229", b"000230", b"240230", b"000431", b"990631", b"120931",
    b"121131", b"000132", b"000100", b"000001", b"001301", b"000000", b"991332", b"999999",
    b"500700", b"001232",
];
const NO_TIME: Way = Texts(&[
    b"2400", b"2360", b"0060", b"9900", b"0099", b" 000", b"000 ", b"0 00", b"00 0", b"   0",
    b"0   ", b"  00", b"00  ", b"A000", b"000A", b"1:30", b"-100", b"3000",
]);
const NO_IDENTIFIER: Way = Texts(&[
    b" ", b"#", b"*", b"@", b"_", b"/", b":", b"(", b"!", b"=", b"?", b"$", b".",
]);
const NO_CODE: Way = Texts(&[
    b"33", b"38", b"35", b"30", b"34", b"39", b"22", b"27", b"47", b"00", b"  ", b"3 ", b" 7",
    b"73", b"A7", b"3A", b"13", b"76", b"02",
]);
const NO_AMOUNT: Way = Texts(&[b"0000000000", b"         1", b"1         ", b"000000000 "]);
const NO_INFORMATION: Way = Texts(&[
    b"02", b"10", b"11", b"  ", b"0 ", b" 0", b" 1", b"99", b"1 ", b"0A", b"A0", b"09",
]);
const NO_FLAG: Way = Texts(&[b" ", b"2", b"9", b"A", b"/", b":", b"!", b"O"]);
const NOT_01: Way = Texts(&[b"00", b"10", b"02", b" 1", b"1 ", b"  ", b"O1"]);
const NOT_094101: Way = Texts(&[b"094100", b"094110", b"095101", b"09410 ", b" 94101"]);
const NOT_99: Way = Texts(&[b"05", b"98", b"  ", b"9 ", b"00", b"09"]);
const NOT_05: Way = Texts(&[b"99", b"04", b"  ", b"0 ", b" 5", b"50"]);
const COUNTER: &[Way] = &[CounterEqual, CounterFalling, CounterRepeated, CounterZero];
const OTHER_COUNTER: &[Way] = &[Other, OtherDigit, OneMore, OneLess, Blanks];
const SUM: &[Way] = &[
    OneMore,
    OneLess,
    LeadingDigit,
    BlankPadded,
    Other,
    OtherDigit,
    NotDigit,
    OneBlank,
    Blanks,
];

const FILE_HEADER: &[Check] = &[
    CHARACTERS,
    check(17, 2, 3, &[Other, NOT_01]),
    check(17, 4, 4, &[Other]),
    check(17, 5, 12, NO_DIGITS),
    check(17, 13, 13, &[Other]),
    check(17, 14, 14, &[Other]),
    check(17, 15, 22, NO_ENTITY),
    check(17, 23, 23, &[Other]),
    check(75, 24, 29, NO_DATE),
    check(75, 24, 29, &[OtherDate, SharedNoDate]),
    check(17, 30, 33, &[NO_TIME]),
    check(17, 34, 34, &[NO_IDENTIFIER]),
    check(17, 35, 40, &[Other, NOT_094101]),
    check(203, 15, 22, &[OtherCurrency, OtherAbsent]),
    check(204, 15, 22, &[Absent]),
];

const BATCH_HEADER: &[Check] = &[
    CHARACTERS,
    check(17, 2, 4, NO_DIGITS),
    check(17, 5, 20, &[Blanks]),
    check(17, 41, 50, NO_DIGITS),
    check(17, 54, 63, &[Blanks]),
    check(75, 70, 75, NO_DATE),
    check(17, 79, 79, &[NotDigit, OneBlank]),
    check(17, 80, 87, NO_ENTITY),
    check(203, 80, 87, &[OtherCurrency, OtherAbsent]),
    check(204, 80, 87, &[Absent]),
    check(17, 88, 94, NO_DIGITS),
];

const INDIVIDUAL: &[Check] = &[
    CHARACTERS,
    check(17, 2, 3, &[NO_CODE]),
    check(17, 4, 11, NO_ENTITY),
    check(203, 4, 11, &[OtherCurrency, OtherAbsent]),
    check(204, 4, 11, &[Absent]),
    check(77, 12, 12, &[Other, OneBlank]),
    check(78, 13, 29, NO_DIGITS),
    check(19, 30, 39, &[NotDigit, OneBlank, Blanks, NO_AMOUNT]),
    check(79, 40, 54, &[Blanks]),
    check(17, 55, 76, &[Blanks]),
    check(87, 77, 78, &[NO_INFORMATION, WrongInformation]),
    check(17, 79, 79, &[NO_FLAG]),
    check(25, 79, 79, &[FlagMissing]),
    check(17, 80, 94, NO_DIGITS),
    check(27, 80, 87, &[OtherDigit]),
    check(27, 88, 94, COUNTER),
];

const MOTIVE: &[Check] = &[
    CHARACTERS,
    check(25, 2, 3, &[Other, NOT_99]),
    check(17, 4, 4, &[Other]),
    check(17, 5, 6, NO_DIGITS),
    check(17, 7, 21, NO_DIGITS),
    check(17, 22, 27, &[Other]),
    check(17, 28, 35, NO_DIGITS),
    check(25, 80, 94, OTHER_COUNTER),
];

const CONCEPT: &[Check] = &[
    CHARACTERS,
    check(25, 2, 3, &[Other, NOT_05]),
    check(17, 84, 87, NO_DIGITS),
    check(25, 88, 94, OTHER_COUNTER),
];

const BATCH_CONTROL: &[Check] = &[
    CHARACTERS,
    check(17, 2, 4, &[Other, OtherDigit, OneBlank]),
    check(17, 5, 10, SUM),
    check(17, 11, 20, SUM),
    check(17, 21, 32, SUM),
    check(17, 33, 44, SUM),
    check(17, 45, 54, &[Other, OtherDigit, OneBlank]),
    check(17, 80, 87, &[Other, OtherDigit, OneBlank]),
    check(17, 88, 94, &[Other, OtherDigit, OneBlank, OneMore]),
];

const FILE_CONTROL: &[Check] = &[
    CHARACTERS,
    check(17, 2, 7, SUM),
    check(17, 8, 13, SUM),
    check(17, 8, 13, &[BlocksRoundedDown]),
    check(17, 14, 21, SUM),
    check(17, 22, 31, SUM),
    check(17, 32, 43, SUM),
    check(17, 44, 55, SUM),
];

/// Another desk's header is judged last, in whichever currency, and whether it is anybody's at all.
const HANDED_FILE_HEADER: &[Check] = &[
    CHARACTERS,
    check(17, 2, 3, &[Other, NOT_01]),
    check(17, 4, 4, &[Other]),
    check(17, 5, 12, NO_DIGITS),
    check(17, 13, 13, &[Other]),
    check(17, 14, 14, &[Other]),
    check(17, 15, 22, NO_DIGITS),
    check(17, 23, 23, &[Other]),
    check(75, 24, 29, NO_DATE),
    check(75, 24, 29, &[OtherDate, SharedNoDate]),
    check(17, 30, 33, &[NO_TIME]),
    check(17, 34, 34, &[NO_IDENTIFIER]),
    check(17, 35, 40, &[Other, NOT_094101]),
    check(17, 5, 8, &[Foreign, Foreign, Absent, OtherForeign]),
    check(17, 5, 8, &[OtherCurrency, OtherDigit, NOBODY]),
    check(17, 9, 12, &[OtherDigit, OneMore]),
];

const HANDED_BATCH_HEADER: &[Check] = &[
    CHARACTERS,
    check(17, 2, 4, NO_DIGITS),
    check(17, 5, 20, &[Blanks]),
    check(17, 41, 50, NO_DIGITS),
    check(17, 54, 63, &[Blanks]),
    check(75, 70, 75, NO_DATE),
    check(17, 79, 79, &[NotDigit, OneBlank]),
    check(17, 80, 87, NO_ENTITY),
    check(203, 80, 87, &[OtherCurrency, OtherAbsent]),
    check(204, 80, 87, &[Absent]),
    check(17, 88, 94, NO_DIGITS),
    check(17, 88, 94, &[OneMore, OneLess, OtherDigit, NO_NUMBER]),
];

/// A foreign destination takes the place of one that is not on the roster.
const HANDED_INDIVIDUAL: &[Check] = &[
    CHARACTERS,
    check(17, 2, 3, &[NO_CODE]),
    check(17, 4, 11, NO_ENTITY),
    check(203, 4, 11, &[OtherCurrency, OtherForeign, OtherAbsent]),
    check(17, 4, 11, &[Foreign, Foreign, Absent]),
    check(77, 12, 12, &[Other, OneBlank]),
    check(78, 13, 29, NO_DIGITS),
    check(19, 30, 39, &[NotDigit, OneBlank, Blanks, NO_AMOUNT]),
    check(79, 40, 54, &[Blanks]),
    check(17, 55, 76, &[Blanks]),
    check(87, 77, 78, &[NO_INFORMATION, WrongInformation]),
    check(17, 79, 79, &[NO_FLAG]),
    check(25, 79, 79, &[FlagMissing]),
    check(17, 80, 94, NO_DIGITS),
    check(27, 80, 87, &[OtherDigit]),
    check(27, 88, 94, COUNTER),
];

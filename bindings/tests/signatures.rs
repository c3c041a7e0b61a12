//! Signatures stand by hand in `crates/export_c`, `include/desk.h` and `src/calls.rs`: they are compared, and with them the structs of
//! answers, those of `crates/export`. So are the constants, which stand in `src/lib.rs`, `src/refusal.rs` and `python/shaydhoqel.py`
//! besides. What Python declares of the functions is compared in its own tests.

mod declarations;

use declarations::{faults, header_constants, of_calls, of_export, of_header};
use declarations::{python_constants, rust_constants, value, Constants, Declarations};
use std::collections::{BTreeMap, BTreeSet};
use std::fs;
use std::path::{Path, PathBuf};

const PLACES: [&str; 4] = [
    "crates/",
    "include/desk.h",
    "bindings/src/",
    "bindings/python/",
];

/// Constants of the boundary, by those of the crates.
const SHARED: [(&str, &str); 13] = [
    ("RECORD", "Session::RECORD"),
    ("FILE_LIMIT", "Session::FILE_LIMIT"),
    ("TRAY_RECORD", "Tray::RECORD"),
    ("TRAY_ROOM", "Record::MOST * Tray::RECORD"),
    ("COMPANY_RECORD", "Company::RECORD"),
    ("ENTITIES", "Session::ROSTER"),
    ("LISTING", "Listing::ROOM"),
    ("OPENING", "Spoken::OPENING"),
    ("TEXT", "Shown::TEXT"),
    ("MOTIVES", "Shown::MOTIVES"),
    ("NOWHERE", "SpokenText::NOWHERE"),
    ("IN_FILE", "SpokenText::IN_FILE"),
    ("IN_MOTIVES", "SpokenText::IN_MOTIVES"),
];

// ---- comparing

/// Where the first places do not declare the same: the first difference of each name.
fn differences<const N: usize>(declared: &[Declarations; N]) -> Vec<String> {
    let names: BTreeSet<_> = declared.iter().flat_map(Declarations::keys).collect();
    let found = names.into_iter().filter_map(|name| {
        let found = difference(declared.each_ref().map(|declared| declared.get(name)))?;
        Some(format!("{name}: {found}"))
    });
    found.collect()
}

fn difference<const N: usize>(declared: [Option<&Vec<String>>; N]) -> Option<String> {
    if let Some(missing) = declared.iter().position(Option::is_none) {
        return Some(format!("not in {}", PLACES[missing]));
    }
    let lists = declared.map(|list| list.map_or(&[][..], Vec::as_slice));
    let longest = lists.map(<[String]>::len).into_iter().max()?;
    let parts = |index| lists.map(|list| list.get(index).map_or("nothing more", String::as_str));
    let alike = |parts: &[&str; N]| parts.iter().all(|part| *part == parts[0]);
    let differing = (0..longest).map(parts).find(|parts| !alike(parts))?;
    let said = differing.iter().zip(PLACES);
    let said = said.map(|(part, place)| format!("{part} in {place}"));
    Some(said.collect::<Vec<_>>().join(" | "))
}

fn assert_the_same<const N: usize>(declared: &[Declarations; N]) {
    let found = differences(declared);
    assert!(found.is_empty(), "\n{}\n", found.join("\n"));
}

// ---- the files

fn path(name: &str) -> PathBuf {
    Path::new(env!("CARGO_MANIFEST_DIR")).join("..").join(name)
}

fn file(name: &str) -> String {
    fs::read_to_string(path(name)).expect(name)
}

/// The sources of a crate, one behind the other.
fn sources(name: &str) -> String {
    let folder = path("crates").join(name).join("src");
    let entries = fs::read_dir(folder).expect(name);
    let texts = entries.map(|entry| fs::read_to_string(entry?.path()));
    texts.collect::<Result<_, _>>().expect(name)
}

fn crates_constants() -> Constants {
    let crates = [
        "paper", "field", "reading", "reasons", "tray", "company", "desk", "listing", "export",
    ];
    rust_constants(&crates.map(sources).concat())
}

/// Functions and structs of the three texts.
fn declared(export: &str, header: &str, calls: &str) -> [Declarations; 3] {
    [
        of_export(export, &crates_constants()),
        of_header(header, &header_constants(header)),
        of_calls(calls, &rust_constants(&file("bindings/src/lib.rs"))),
    ]
}

#[test]
fn functions_and_structs() {
    let export = sources("export_c") + &sources("export");
    let declared = declared(
        &export,
        &file("include/desk.h"),
        &file("bindings/src/calls.rs"),
    );
    assert_the_same(&declared);
    let marks = ["#[unsafe(no_mangle)]", "#[repr(C)]"].map(|mark| export.matches(mark).count());
    assert_eq!(declared[0].len(), marks[0] + marks[1], "not all were read");
}

/// Each constant with its number.
fn numbers(constants: &Constants, meanings: &Constants) -> Declarations {
    let numbers = constants.iter();
    let numbers = numbers.map(|(name, defined)| (name.clone(), vec![value(defined, meanings)]));
    numbers.collect()
}

/// The shared ones, every figure and every refusal number.
fn export_constants(constants: &Constants) -> Constants {
    let shared = SHARED.map(|(name, defined)| (name.to_string(), defined.to_string()));
    let figures = constants.iter().filter_map(|(name, defined)| {
        let name = name.strip_prefix("Figure::")?;
        Some((name.to_string(), defined.clone()))
    });
    let answers = file("crates/paper/src/answer.rt");
    let refusals = answers.lines().filter_map(|line| {
        let (fault, number) = line.trim().strip_suffix(',')?.split_once(" = ")?;
        Some((
            format!("REFUSED_{}", fault.to_uppercase()),
            number.to_string(),
        ))
    });
    shared.into_iter().chain(figures).chain(refusals).collect()
}

/// The constants of the boundary, and the faults with their numbers.
fn with_faults(mut constants: Constants, faults: BTreeMap<String, [String; 2]>) -> Constants {
    let faults = faults.into_iter();
    constants.extend(faults.map(|(name, [number, _])| (format!("REFUSED_{name}"), number)));
    constants
}

#[test]
fn constants() {
    let crates = crates_constants();
    let mut header = header_constants(&file("include/desk.h"));
    // acceptance is no refusal, and has a name in the header only
    assert_eq!(header.remove("ACCEPTED").as_deref(), Some("0"));
    // how much stack a call takes is measured, by c/threads_test.c, and no constant of the crates
    let mut export = export_constants(&crates);
    let measured = header.iter().filter(|(name, _)| name.starts_with("STACK"));
    export.extend(measured.map(|(name, number)| (name.clone(), number.clone())));
    let rust = rust_constants(&file("bindings/src/lib.rs"));
    let rust = with_faults(rust, faults(&file("bindings/src/refusal.rs")));
    let python = file("bindings/python/shaydhoqel.py");
    let python = with_faults(python_constants(&python), faults(&python));
    let declared = [
        numbers(&export, &crates),
        numbers(&header, &header),
        numbers(&rust, &rust),
        numbers(&python, &python),
    ];
    assert_the_same(&declared);
    for (name, number) in [
        ("RECORD", "94"),
        ("OPENING", "18446744073709551615"),
        ("SENT", "1"),
        ("REFUSED_LENGTH", "201"),
    ] {
        assert_eq!(declared[0][name], [number]);
    }
}

/// What a number says stands in the header, as the comment before it, and where it is shown.
#[test]
fn words() {
    let said = [
        file("bindings/src/refusal.rs"),
        file("bindings/python/shaydhoqel.py"),
    ];
    let [rust, python] = said.each_ref().map(|text| faults(text));
    assert_eq!(rust, python);
    let header = file("include/desk.h");
    for (name, [number, words]) in rust {
        let member = format!("/* {words} */\n    SHAYDHOQEL_REFUSED_{name} = {number}");
        assert!(header.contains(&member), "{member}");
    }
}

// ---- one difference at a time

const EXPORT: &str = "
    #[repr(C)]
    pub struct Spoken { pub number: u64, pub place: u64 }
    // A function to try.
    #[unsafe(no_mangle)]
    pub extern \"C\" fn shaydhoqel_tried(date: u64, entity: u64, file: &[u8], out: &mut [i64], marks: &[bool; Session::ROSTER]) -> Spoken
        ensures { λ r. ⌜ r ≡ tried (date) ⌝ }
    {}";

const HEADER: &str = "
    #define SHAYDHOQEL_ENTITIES 500
    struct shaydhoqel_spoken { uint64_t number; uint64_t place; };
    /* A function to try. */
    struct shaydhoqel_spoken shaydhoqel_tried(uint64_t date, uint64_t entity, const uint8_t *file, size_t file_length,
        int64_t *out, size_t out_length, const bool marks[SHAYDHOQEL_ENTITIES]);";

const CALLS: &str = "
    #[repr(C)]
    pub struct Spoken { pub number: u64, pub place: u64 }
    unsafe extern \"C\" {
        // A function to try.
        fn shaydhoqel_tried(date: u64, entity: u64, file: *const u8, file_length: usize, out: *mut i64, out_length: usize,
            marks: &[bool; ENTITIES]) -> Spoken;
    }";

/// What is found once a part of one of the three texts is exchanged, as in `part => other`.
fn found(text: usize, exchange: &str) -> Vec<String> {
    let (part, other) = exchange.split_once(" => ").expect(exchange);
    let mut texts = [EXPORT, HEADER, CALLS].map(str::to_string);
    assert_eq!(texts[text].matches(part).count(), 1, "{exchange}");
    texts[text] = texts[text].replace(part, other);
    let [export, header, calls] = texts;
    differences(&declared(&export, &header, &calls))
}

/// Each exchange is found, and the function or struct named.
fn assert_found(text: usize, name: &str, exchanges: &[&str]) {
    for exchange in exchanges {
        let found = found(text, exchange);
        let named = found.iter().any(|found| found.starts_with(name));
        assert!(named, "{}: {exchange}: {found:?}", PLACES[text]);
    }
}

#[test]
fn nothing_is_found_without_a_difference() {
    assert_the_same(&declared(EXPORT, HEADER, CALLS));
}

#[test]
fn differences_in_export_are_found() {
    let exchanges = [
        "date: u64, entity: u64 => entity: u64, date: u64",
        "&mut [i64] => &[i64]",
        "marks: & => marks: &mut ",
        "date: u64 => date: u32",
        "file: &[u8] => file: &u8",
        "Session::ROSTER => 499",
        "-> Spoken => -> u64",
        "_tried( => _other(",
        "#[unsafe(no_mangle)] => ",
    ];
    assert_found(0, "shaydhoqel_tried", &exchanges);
    let fields = "number: u64, pub place: u64 => place: u64, pub number: u64";
    assert_found(0, "Spoken", &[fields, "#[repr(C)] => "]);
}

#[test]
fn differences_in_the_header_are_found() {
    let exchanges = [
        "uint64_t date, uint64_t entity => uint64_t entity, uint64_t date",
        "int64_t *out => const int64_t *out",
        "const uint8_t *file => uint8_t *file",
        "const bool marks => bool marks",
        "uint64_t date => uint32_t date",
        "int64_t *out => uint64_t *out",
        ", size_t file_length => ",
        "marks[SHAYDHOQEL_ENTITIES] => marks[499]",
        "ENTITIES 500 => ENTITIES 501",
        "struct shaydhoqel_spoken shaydhoqel_tried => uint64_t shaydhoqel_tried",
        "_tried( => _other(",
    ];
    assert_found(1, "shaydhoqel_tried", &exchanges);
    assert_found(1, "Spoken", &[" uint64_t place; => "]);
}

#[test]
fn differences_in_the_calls_are_found() {
    let exchanges = [
        "date: u64, entity: u64 => entity: u64, date: u64",
        "*mut i64 => *const i64",
        "marks: & => marks: &mut ",
        "entity: u64 => entity: u32",
        " file_length: usize, => ",
        "file: *const u8, file_length: usize => file: &[u8]",
        "; ENTITIES => ; 499",
        " -> Spoken => ",
        "_tried( => _other(",
    ];
    assert_found(2, "shaydhoqel_tried", &exchanges);
    assert_found(2, "Spoken", &["place: u64 } => place: u32 }"]);
}

#[test]
fn a_difference_says_what_stands_where() {
    let said = "shaydhoqel_tried: date: u64 in crates/ | date: uint32_t in include/desk.h | date: u64 in bindings/src/";
    assert_eq!(found(1, "uint64_t date => uint32_t date"), [said]);
    let missing = found(2, "_tried( => _other(");
    assert_eq!(missing[1], "shaydhoqel_tried: not in bindings/src/");
}

#[test]
fn another_number_is_found() {
    let rust = "impl Figure {\n    pub const SENT: usize = 1;\n}\nconst FEW: u64 = 1_000;\n";
    let rust = rust_constants(rust);
    assert_eq!(value("Figure::SENT + FEW * 3 as usize", &rust), "3001");
    let header = "#define SHAYDHOQEL_RECORD 94\nenum figure { SHAYDHOQEL_SENT = 1, /* and */ SHAYDHOQEL_FIGURES = 3 };";
    for exchange in ["94 => 95", "SENT = 1 => SENT = 2", "SENT => SEND"] {
        let (part, other) = exchange.split_once(" => ").expect(exchange);
        let [one, another] = [header, &header.replace(part, other)].map(header_constants);
        for places in [[&one, &another, &one, &one], [&one, &one, &one, &another]] {
            let declared = places.map(|constants| numbers(constants, constants));
            assert!(!differences(&declared).is_empty(), "{exchange}");
        }
    }
}

#[test]
fn constants_of_python_and_tables_of_faults_are_read() {
    let python = "RECORD = 1_094\nSENT = 1\nBuffer = Union[bytes]\nclass Fault(IntEnum):\n    LENGTH = 201, \"a, b\"\n";
    let constants = python_constants(python);
    let expected = [("RECORD", "1_094"), ("SENT", "1")]
        .map(|(name, number)| (name.to_string(), number.to_string()));
    assert_eq!(constants, Constants::from(expected));
    let rust = "faults! {\n    Length = 201, \"a, b\";\n}";
    let length = [("LENGTH".to_string(), ["201", "a, b"].map(str::to_string))];
    assert_eq!(
        [faults(python), faults(rust)],
        [BTreeMap::from(length.clone()), BTreeMap::from(length)]
    );
}

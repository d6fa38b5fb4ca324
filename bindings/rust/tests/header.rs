//! The numbers and functions of the crate are those of the library's manual.

use yinqocha::{door, Fault};

const HEADER: &str = include_str!("../../../include/yinqocha.h");

/// The crate's name for each number that the header defines.
fn numbers() -> Vec<(&'static str, u64)> {
    let faults = [
        ("OK", 0),
        ("SHEET_TOO_LONG", Fault::SHEET_TOO_LONG),
        ("SHEET_CUT", Fault::SHEET_CUT),
        ("UNKNOWN_KIND", Fault::UNKNOWN_KIND),
        ("OUT_OF_PLACE", Fault::OUT_OF_PLACE),
        ("BODY_LENGTH", Fault::BODY_LENGTH),
        ("SPARE_BIT", Fault::SPARE_BIT),
        ("BAD_BENCHES", Fault::BAD_BENCHES),
        ("BAD_SHARE", Fault::BAD_SHARE),
        ("BAD_BOOKING", Fault::BAD_BOOKING),
        ("BOOKED_TWICE", Fault::BOOKED_TWICE),
        ("TOO_MANY_JOBS", Fault::TOO_MANY_JOBS),
        ("BAD_MINUTES", Fault::BAD_MINUTES),
        ("BAD_ALLOWED", Fault::BAD_ALLOWED),
        ("LONG_JOB_WITH_CHOICE", Fault::LONG_JOB_WITH_CHOICE),
        ("NO_ROOM", Fault::NO_ROOM),
        ("NO_ASSIGNMENT", Fault::NO_ASSIGNMENT),
        ("BAD_LIST", Fault::BAD_LIST),
        ("BAD_SET", Fault::BAD_SET),
        ("SHARED_BENCH", Fault::SHARED_BENCH),
    ];
    let values = [
        ("PLAN", door::PLAN),
        ("LONG", door::LONG),
        ("NONE", door::NONE),
        ("BEST", door::BEST),
        ("DIFFERENT", door::DIFFERENT),
        ("SAME", door::SAME),
        ("NOT_PASSED", door::NOT_PASSED),
        ("PASSED", door::PASSED),
    ];
    let sizes = [
        ("MAX_BENCHES", yinqocha::MAX_BENCHES),
        ("MAX_JOBS", yinqocha::MAX_JOBS),
        ("MAX_SHEET_BYTES", yinqocha::MAX_SHEET_BYTES),
        ("ANSWER_ENTRIES", door::ANSWER_ENTRIES),
        ("BEST_ENTRIES", door::BEST_ENTRIES),
        ("CHECK_PLAN_ENTRIES", door::CHECK_PLAN_ENTRIES),
        ("CHECK_SET_ENTRIES", door::CHECK_SET_ENTRIES),
        ("CHECK_PAGE_ENTRIES", door::CHECK_PAGE_ENTRIES),
    ];
    let limits = [
        ("MAX_SHARE", yinqocha::MAX_SHARE),
        ("MAX_TARGET", yinqocha::MAX_TARGET),
        ("MAX_MINUTES", yinqocha::MAX_MINUTES),
    ];
    let words = faults.into_iter().chain(values).map(|(name, number)| (name, u64::from(number)));
    let sizes = sizes.into_iter().map(|(name, size)| (name, size as u64));
    words.chain(sizes).chain(limits).collect()
}

/// The plain numbers of the header, in its order.
fn defined() -> Vec<(&'static str, u64)> {
    let line = |line: &'static str| {
        let (name, rest) = line.strip_prefix("#define YINQOCHA_")?.split_once(' ')?;
        let digits = rest.split(' ').next()?.strip_suffix('u')?;
        Some((name, digits.parse().ok()?))
    };
    HEADER.lines().filter_map(line).collect()
}

#[test]
fn every_number_of_the_header_is_the_crates() {
    let [mut header, mut crates] = [defined(), numbers()];
    header.sort_unstable();
    crates.sort_unstable();
    assert_eq!(header, crates);
}

#[test]
fn every_function_of_the_header_is_in_the_door() {
    let functions: Vec<&str> = HEADER
        .lines()
        .filter_map(|line| line.strip_prefix("uint64_t yinqocha_")?.split('(').next())
        .collect();
    let door = include_str!("../src/door.rs");
    let missing: Vec<&&str> = functions
        .iter()
        .filter(|name| {
            !door.contains(&format!("    fn yinqocha_{name}("))
                || !door.contains(&format!("\npub fn {name}("))
        })
        .collect();
    assert_eq!((functions.len(), missing), (door.matches("    fn yinqocha_").count(), vec![]));
}

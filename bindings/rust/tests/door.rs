//! The functions on bytes: result words as they are, NULL and empty slices, tables that are too
//! short, and bytes that keep their contents.

use yinqocha::door::{self, fault, value};

const SHEET: &[u8] = b"\x11\x00\x07\x06\x10\x38\x00\x00\x01\x20\x13\x00\x00";
const NO_ROOM: u64 = 13 << 32;

/// A sheet with one job of 5 minutes on bench 0 or 1.
fn sheet() -> [u8; 27] {
    let mut sheet = [0; 27];
    let (minutes, allowed) = (5_u64.to_le_bytes(), (3_u64 << 62).to_le_bytes());
    let word = door::write([3, 4, 7, 9], None, Some(&minutes), Some(&allowed), Some(&mut sheet));
    assert_eq!(word, 27);
    sheet
}

#[test]
fn nothing_is_an_empty_buffer_as_an_empty_slice_is() {
    for empty in [None, Some(&[][..])] {
        let mut out = [0xFF; 13];
        assert_eq!(door::write([3, 4, 7, 9], empty, empty, empty, Some(&mut out)), 13);
        assert_eq!(out, SHEET);
        assert_eq!(door::write([3, 4, 7, 9], empty, empty, empty, None), NO_ROOM);
        assert_eq!(door::write([3, 4, 7, 9], empty, empty, empty, Some(&mut [])), NO_ROOM);
        let cut = 2 << 32;
        assert_eq!(door::read(empty, None), cut);
        assert_eq!(door::plan(empty, None, None, None), cut);
        assert_eq!(door::best(empty, Some(&mut []), None, None), cut);
        assert_eq!(door::compare(empty, empty, empty), cut);
        assert_eq!(door::check_plan(empty, empty, None), cut);
        assert_eq!(door::check_set(empty, 1, None), cut);
        assert_eq!(door::check_page(empty, empty, None), cut);
        assert_eq!(door::compare(Some(SHEET), empty, empty), u64::from(door::SAME));
    }
}

#[test]
fn a_table_that_is_too_short_keeps_its_bytes() {
    let sheet = sheet();
    let whole = [0xFF_u8; 8 * 70];
    let mut contents = whole;
    for room in [0, 8, 8 * 70 - 1] {
        assert_eq!(door::read(Some(&sheet), Some(&mut contents[..room])), NO_ROOM);
        assert_eq!(contents, whole);
    }
    for [places, loads, answer] in [[7, 24, 24], [8, 23, 24], [8, 24, 23], [0, 0, 0]] {
        let mut tables = [[0xFF_u8; 64]; 3];
        let [a, b, c] = &mut tables;
        let word = door::plan(
            Some(&sheet),
            Some(&mut a[..places]),
            Some(&mut b[..loads]),
            Some(&mut c[..answer]),
        );
        assert_eq!(word, NO_ROOM);
        let word = door::best(
            Some(&sheet),
            Some(&mut a[..places]),
            Some(&mut b[..loads]),
            Some(&mut c[..answer + 16]),
        );
        assert_eq!(word, NO_ROOM);
        assert_eq!(tables, [[0xFF; 64]; 3]);
    }
    let mut answer = [0xFF; 15];
    assert_eq!(door::check_plan(Some(&sheet), Some(&[0; 8]), Some(&mut answer)), NO_ROOM);
    assert_eq!(door::check_set(Some(&sheet), 1 << 63, Some(&mut answer[..7])), NO_ROOM);
    assert_eq!(door::check_page(Some(&sheet), None, Some(&mut answer[..7])), NO_ROOM);
    assert_eq!(answer, [0xFF; 15]);
}

#[test]
fn later_bytes_keep_their_contents() {
    let sheet = sheet();
    let mut contents = [0xA5; 8 * 71];
    assert_eq!(door::read(Some(&sheet), Some(&mut contents)), 1);
    let entry = |index: usize| contents[8 * index..].first_chunk().copied().map(u64::from_le_bytes);
    let head = [0, 1, 2, 3].map(entry);
    assert_eq!(head, [3, 4, 7, 9].map(Some));
    assert!((4..68).all(|booked| entry(booked) == Some(0)));
    assert_eq!([entry(68), entry(69)], [Some(5), Some(3 << 62)]);
    assert_eq!(contents[8 * 70..], [0xA5; 8]);
    let [mut places, mut loads, mut answer] = [[0xA5_u8; 48]; 3];
    let word = door::plan(Some(&sheet), Some(&mut places), Some(&mut loads), Some(&mut answer));
    assert_eq!((fault(word), value(word)), (0, door::PLAN));
    assert_eq!((places[0], loads[0], answer[0]), (0, 5, 5));
    assert_eq!((&places[8..], &loads[24..]), (&[0xA5; 40][..], &[0xA5; 24][..]));
    assert_eq!(answer[24..], [0xA5; 24]);
}

#[test]
fn a_begun_entry_counts() {
    let sheet = sheet();
    assert_eq!(door::compare(Some(&sheet), Some(&[1]), Some(&1_u64.to_le_bytes())), 1);
    let allowed = (3_u64 << 62).to_le_bytes();
    let mut out = [0; 27];
    let word = door::write([3, 4, 7, 9], None, Some(&[5]), Some(&allowed), Some(&mut out));
    assert_eq!((word, out), (27, sheet));
    let word = door::write([3, 4, 7, 9], None, Some(&[0]), Some(&allowed), Some(&mut out));
    assert_eq!((fault(word), value(word)), (10, 0));
}

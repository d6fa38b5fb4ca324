//! The static library's planning and comparing. Without the feature `library` this program links
//! no archive, and there is no answer of the library.

use second::lent::empty::Empty;
#[cfg(feature = "library")]
use yinqocha::door;

pub const LINKED: bool = cfg!(feature = "library");

/// The library's result word, if it is linked.
#[cfg(feature = "library")]
pub fn plan(sheet: &[u8], tables: [&mut [u8]; 3], empty: Empty) -> Option<u64> {
    let [places, loads, answer] = tables.map(|table| empty.output(table));
    Some(door::plan(empty.input(sheet), places, loads, answer))
}

#[cfg(not(feature = "library"))]
pub fn plan(_: &[u8], _: [&mut [u8]; 3], _: Empty) -> Option<u64> {
    None
}

/// The library's result word, if it is linked.
#[cfg(feature = "library")]
pub fn compare(sheet: &[u8], lists: [&[u8]; 2], empty: Empty) -> Option<u64> {
    let [first, second] = lists.map(|list| empty.input(list));
    Some(door::compare(empty.input(sheet), first, second))
}

#[cfg(not(feature = "library"))]
pub fn compare(_: &[u8], _: [&[u8]; 2], _: Empty) -> Option<u64> {
    None
}

//! The static library's checks of a list, of a set and of a page, apart from its other calls: the
//! programs of times are linked with libraries from before them, too.

use second::lent::empty::Empty;
#[cfg(feature = "library")]
use yinqocha::door;

/// The library's result word, if it is linked.
#[cfg(feature = "library")]
pub fn check_plan(sheet: &[u8], places: &[u8], answer: &mut [u8], empty: Empty) -> Option<u64> {
    Some(door::check_plan(empty.input(sheet), empty.input(places), empty.output(answer)))
}

#[cfg(not(feature = "library"))]
pub fn check_plan(_: &[u8], _: &[u8], _: &mut [u8], _: Empty) -> Option<u64> {
    None
}

/// The library's result word, if it is linked.
#[cfg(feature = "library")]
pub fn check_set(sheet: &[u8], set: u64, answer: &mut [u8], empty: Empty) -> Option<u64> {
    Some(door::check_set(empty.input(sheet), set, empty.output(answer)))
}

#[cfg(not(feature = "library"))]
pub fn check_set(_: &[u8], _: u64, _: &mut [u8], _: Empty) -> Option<u64> {
    None
}

/// The library's result word, if it is linked.
#[cfg(feature = "library")]
pub fn check_page(sheet: &[u8], page: &[u8], answer: &mut [u8], empty: Empty) -> Option<u64> {
    Some(door::check_page(empty.input(sheet), empty.input(page), empty.output(answer)))
}

#[cfg(not(feature = "library"))]
pub fn check_page(_: &[u8], _: &[u8], _: &mut [u8], _: Empty) -> Option<u64> {
    None
}

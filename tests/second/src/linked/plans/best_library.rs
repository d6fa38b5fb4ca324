//! The static library's search for the best target, apart from its other calls: `plan_times` is
//! linked with libraries from before it, too.

use second::lent::empty::Empty;
#[cfg(feature = "library")]
use yinqocha::door;

/// The library's result word, if it is linked.
#[cfg(feature = "library")]
pub fn best(sheet: &[u8], tables: [&mut [u8]; 3], empty: Empty) -> Option<u64> {
    let [places, loads, answer] = tables.map(|table| empty.output(table));
    Some(door::best(empty.input(sheet), places, loads, answer))
}

#[cfg(not(feature = "library"))]
pub fn best(_: &[u8], _: [&mut [u8]; 3], _: Empty) -> Option<u64> {
    None
}

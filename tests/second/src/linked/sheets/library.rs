//! The static library's writing and reading, and reading as the library `inspect` shows it.

use second::codec::sheet::Head;
use second::lent::empty::Empty;
use std::ptr;
use yinqocha::door;

extern "C" {
    fn yinqocha_inspect(
        sheet: *const u8,
        sheet_len: usize,
        table: *mut u8,
        table_len: usize,
    ) -> u64;
}

/// The tables are those of bookings, of minutes and of benches allowed.
pub fn write(head: Head, tables: [&[u8]; 3], out: &mut [u8], empty: Empty) -> u64 {
    let Head { benches, p, q, target } = head;
    let [booked, minutes, allowed] = tables.map(|table| empty.input(table));
    door::write([benches, p, q, target], booked, minutes, allowed, empty.output(out))
}

pub fn read(sheet: &[u8], contents: &mut [u8], empty: Empty) -> u64 {
    door::read(empty.input(sheet), empty.output(contents))
}

pub fn inspect(sheet: &[u8], table: &mut [u8], empty: Empty) -> u64 {
    let (sheet_len, table_len) = (sheet.len(), table.len());
    let sheet = empty.input(sheet).map_or(ptr::null(), <[u8]>::as_ptr);
    let table = empty.output(table).map_or(ptr::null_mut(), <[u8]>::as_mut_ptr);
    // SAFETY: each pointer and length is one slice's, or NULL and 0; the table overlaps nothing.
    unsafe { yinqocha_inspect(sheet, sheet_len, table, table_len) }
}

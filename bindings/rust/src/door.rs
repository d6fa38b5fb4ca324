//! The C door on bytes and numbers, one function for one, as the library's manual `yinqocha.h`
//! describes them. All unsafe code of the crate is here.
//!
//! A buffer is a slice of bytes, or `None` for NULL with length 0; both an empty slice and `None`
//! are an empty buffer. A table is a buffer of numbers of 8 bytes each, least significant byte
//! first. Every function returns the result word as it is: [`fault`] and [`value`] take it apart.
//!
//! Every value of every number and every content of every buffer has an answer, and the library
//! reads and writes no byte outside of a buffer: so the functions are safe. That a buffer which is
//! written overlaps no other holds of any slices.

use core::ptr;

/// Planning: each job has one of its benches, and no bench is loaded above the bound.
pub const PLAN: u32 = 1;
/// Planning and checking sets: a job has more minutes than the target.
pub const LONG: u32 = 2;
/// Planning: a set of benches is blocking.
pub const NONE: u32 = 3;
/// The best target was found.
pub const BEST: u32 = 1;
/// Comparing: some job is on another bench.
pub const DIFFERENT: u32 = 0;
/// Comparing: every job is on the same bench.
pub const SAME: u32 = 1;
/// Checking: what was given does not pass.
pub const NOT_PASSED: u32 = 0;
/// Checking: what was given passes.
pub const PASSED: u32 = 1;

/// The entries of the answer table of [`plan`].
pub const ANSWER_ENTRIES: usize = 3;
/// The entries of the answer table of [`best`].
pub const BEST_ENTRIES: usize = 5;
/// The entries of the answer table of [`check_plan`].
pub const CHECK_PLAN_ENTRIES: usize = 2;
/// The entries of the answer table of [`check_set`].
pub const CHECK_SET_ENTRIES: usize = 1;
/// The entries of the answer table of [`check_page`].
pub const CHECK_PAGE_ENTRIES: usize = 1;

/// The fault number of a result word, 0 for none.
///
/// ```
/// assert_eq!(yinqocha::door::fault(14 << 32 | 3), 14);
/// ```
#[inline]
pub const fn fault(word: u64) -> u32 {
    (word >> 32) as u32
}

/// The value of a result word without a fault, and the place of one with a fault.
///
/// ```
/// assert_eq!(yinqocha::door::value(14 << 32 | 3), 3);
/// ```
#[inline]
pub const fn value(word: u64) -> u32 {
    word as u32
}

extern "C" {
    fn yinqocha_write(
        benches: u64,
        p: u64,
        q: u64,
        target: u64,
        booked: *const u8,
        booked_len: usize,
        minutes: *const u8,
        minutes_len: usize,
        allowed: *const u8,
        allowed_len: usize,
        out: *mut u8,
        out_len: usize,
    ) -> u64;

    fn yinqocha_read(
        sheet: *const u8,
        sheet_len: usize,
        contents: *mut u8,
        contents_len: usize,
    ) -> u64;

    fn yinqocha_plan(
        sheet: *const u8,
        sheet_len: usize,
        places: *mut u8,
        places_len: usize,
        loads: *mut u8,
        loads_len: usize,
        answer: *mut u8,
        answer_len: usize,
    ) -> u64;

    fn yinqocha_best(
        sheet: *const u8,
        sheet_len: usize,
        places: *mut u8,
        places_len: usize,
        loads: *mut u8,
        loads_len: usize,
        answer: *mut u8,
        answer_len: usize,
    ) -> u64;

    fn yinqocha_compare(
        sheet: *const u8,
        sheet_len: usize,
        first: *const u8,
        first_len: usize,
        second: *const u8,
        second_len: usize,
    ) -> u64;

    fn yinqocha_check_plan(
        sheet: *const u8,
        sheet_len: usize,
        places: *const u8,
        places_len: usize,
        answer: *mut u8,
        answer_len: usize,
    ) -> u64;

    fn yinqocha_check_set(
        sheet: *const u8,
        sheet_len: usize,
        set: u64,
        answer: *mut u8,
        answer_len: usize,
    ) -> u64;

    fn yinqocha_check_page(
        sheet: *const u8,
        sheet_len: usize,
        page: *const u8,
        page_len: usize,
        answer: *mut u8,
        answer_len: usize,
    ) -> u64;
}

/// The pointer and the length of a buffer that is read.
#[inline]
fn read_only(buffer: Option<&[u8]>) -> (*const u8, usize) {
    buffer.map_or((ptr::null(), 0), |bytes| (bytes.as_ptr(), bytes.len()))
}

/// The pointer and the length of a buffer that is written.
#[inline]
fn written(buffer: Option<&mut [u8]>) -> (*mut u8, usize) {
    buffer.map_or((ptr::null_mut(), 0), |bytes| (bytes.as_mut_ptr(), bytes.len()))
}

/// `yinqocha_write`: writes a sheet. `head` has benches, p, q and target; `booked`, `minutes` and
/// `allowed` are tables. The value is the length of the sheet.
///
/// ```
/// use yinqocha::door;
///
/// let minutes = 5_u64.to_le_bytes();
/// let allowed = (1_u64 << 63).to_le_bytes();
/// let mut sheet = [0; 27];
/// let word = door::write([2, 4, 7, 9], None, Some(&minutes), Some(&allowed), Some(&mut sheet));
/// assert_eq!(word, 27);
/// ```
#[inline]
pub fn write(
    head: [u64; 4],
    booked: Option<&[u8]>,
    minutes: Option<&[u8]>,
    allowed: Option<&[u8]>,
    out: Option<&mut [u8]>,
) -> u64 {
    let [benches, p, q, target] = head;
    let (booked, booked_len) = read_only(booked);
    let (minutes, minutes_len) = read_only(minutes);
    let (allowed, allowed_len) = read_only(allowed);
    let (out, out_len) = written(out);
    // SAFETY: each pointer and length is one slice's, or NULL and 0; `out` overlaps no other.
    unsafe {
        yinqocha_write(
            benches,
            p,
            q,
            target,
            booked,
            booked_len,
            minutes,
            minutes_len,
            allowed,
            allowed_len,
            out,
            out_len,
        )
    }
}

/// `yinqocha_read`: reads a sheet into a table of contents, 4 entries of the head, 64 of bookings,
/// and two for each job. The value is the number of jobs.
///
/// ```
/// use yinqocha::door;
///
/// let sheet = b"\x11\x00\x07\x06\x10\x38\x00\x00\x01\x20\x13\x00\x00";
/// let mut contents = [0; 8 * 68];
/// assert_eq!(door::read(Some(sheet), Some(&mut contents)), 0);
/// assert_eq!(contents[..8], 3_u64.to_le_bytes());
/// assert_eq!(door::fault(door::read(None, Some(&mut contents))), 2);
/// ```
#[inline]
pub fn read(sheet: Option<&[u8]>, contents: Option<&mut [u8]>) -> u64 {
    let (sheet, sheet_len) = read_only(sheet);
    let (contents, contents_len) = written(contents);
    // SAFETY: each pointer and length is one slice's, or NULL and 0; `contents` overlaps no other.
    unsafe { yinqocha_read(sheet, sheet_len, contents, contents_len) }
}

/// `yinqocha_plan`: plans a sheet into tables of places, of loads and of the answer. The value is
/// [`PLAN`], [`LONG`] or [`NONE`].
///
/// ```
/// use yinqocha::door;
///
/// let sheet = b"\x11\x00\x07\x06\x10\x38\x00\x00\x01\x20\x13\x00\x00";
/// let (mut loads, mut answer) = ([0xFF; 8 * 3], [0xFF; 8 * door::ANSWER_ENTRIES]);
/// let word = door::plan(Some(sheet), None, Some(&mut loads), Some(&mut answer));
/// assert_eq!(word, u64::from(door::PLAN));
/// assert_eq!((loads, answer), ([0; 24], [0; 24]));
/// ```
#[inline]
pub fn plan(
    sheet: Option<&[u8]>,
    places: Option<&mut [u8]>,
    loads: Option<&mut [u8]>,
    answer: Option<&mut [u8]>,
) -> u64 {
    let (sheet, sheet_len) = read_only(sheet);
    let (places, places_len) = written(places);
    let (loads, loads_len) = written(loads);
    let (answer, answer_len) = written(answer);
    // SAFETY: each pointer and length is one slice's, or NULL and 0; the tables overlap no other.
    unsafe {
        yinqocha_plan(sheet, sheet_len, places, places_len, loads, loads_len, answer, answer_len)
    }
}

/// `yinqocha_best`: finds the best target of a sheet, with its plan in tables of places, of loads
/// and of the answer. The value is [`BEST`].
///
/// ```
/// use yinqocha::door;
///
/// let sheet = b"\x11\x00\x07\x06\x10\x38\x00\x00\x01\x20\x13\x00\x00";
/// let (mut loads, mut answer) = ([0xFF; 8 * 3], [0xFF; 8 * door::BEST_ENTRIES]);
/// let word = door::best(Some(sheet), None, Some(&mut loads), Some(&mut answer));
/// assert_eq!(word, u64::from(door::BEST));
/// assert_eq!(answer[8 * 4..], 1_u64.to_le_bytes());
/// ```
#[inline]
pub fn best(
    sheet: Option<&[u8]>,
    places: Option<&mut [u8]>,
    loads: Option<&mut [u8]>,
    answer: Option<&mut [u8]>,
) -> u64 {
    let (sheet, sheet_len) = read_only(sheet);
    let (places, places_len) = written(places);
    let (loads, loads_len) = written(loads);
    let (answer, answer_len) = written(answer);
    // SAFETY: each pointer and length is one slice's, or NULL and 0; the tables overlap no other.
    unsafe {
        yinqocha_best(sheet, sheet_len, places, places_len, loads, loads_len, answer, answer_len)
    }
}

/// `yinqocha_compare`: compares two lists of places, which are tables and may be one buffer. The
/// value is [`SAME`] or [`DIFFERENT`].
///
/// ```
/// use yinqocha::door;
///
/// let sheet = b"\x11\x00\x07\x06\x10\x38\x00\x00\x01\x20\x13\x00\x00";
/// assert_eq!(door::compare(Some(sheet), None, Some(&[])), u64::from(door::SAME));
/// assert_eq!(door::compare(Some(sheet), None, Some(&[0; 8])), 13 << 32 | 1);
/// ```
#[inline]
pub fn compare(sheet: Option<&[u8]>, first: Option<&[u8]>, second: Option<&[u8]>) -> u64 {
    let (sheet, sheet_len) = read_only(sheet);
    let (first, first_len) = read_only(first);
    let (second, second_len) = read_only(second);
    // SAFETY: each pointer and length is one slice's, or NULL and 0; none is written.
    unsafe { yinqocha_compare(sheet, sheet_len, first, first_len, second, second_len) }
}

/// `yinqocha_check_plan`: checks a list of places, a table. The value is [`PASSED`] or
/// [`NOT_PASSED`].
///
/// ```
/// use yinqocha::door;
///
/// let sheet = b"\x11\x00\x07\x06\x10\x38\x00\x00\x01\x20\x13\x00\x00";
/// let mut answer = [0xFF; 8 * door::CHECK_PLAN_ENTRIES];
/// let word = door::check_plan(Some(sheet), None, Some(&mut answer));
/// assert_eq!((word, answer), (u64::from(door::PASSED), [0; 16]));
/// ```
#[inline]
pub fn check_plan(sheet: Option<&[u8]>, places: Option<&[u8]>, answer: Option<&mut [u8]>) -> u64 {
    let (sheet, sheet_len) = read_only(sheet);
    let (places, places_len) = read_only(places);
    let (answer, answer_len) = written(answer);
    // SAFETY: each pointer and length is one slice's, or NULL and 0; `answer` overlaps no other.
    unsafe { yinqocha_check_plan(sheet, sheet_len, places, places_len, answer, answer_len) }
}

/// `yinqocha_check_set`: checks whether a set of benches is blocking; bench b is the bit of weight
/// 2^(63 - b). The value is [`PASSED`], [`NOT_PASSED`] or [`LONG`].
///
/// ```
/// use yinqocha::door;
///
/// let sheet = b"\x11\x00\x07\x06\x10\x38\x00\x00\x01\x20\x13\x00\x00";
/// let mut answer = [0xFF; 8 * door::CHECK_SET_ENTRIES];
/// let word = door::check_set(Some(sheet), 1 << 63, Some(&mut answer));
/// assert_eq!((word, answer), (u64::from(door::NOT_PASSED), [0; 8]));
/// ```
#[inline]
pub fn check_set(sheet: Option<&[u8]>, set: u64, answer: Option<&mut [u8]>) -> u64 {
    let (sheet, sheet_len) = read_only(sheet);
    let (answer, answer_len) = written(answer);
    // SAFETY: each pointer and length is one slice's, or NULL and 0; `answer` overlaps no other.
    unsafe { yinqocha_check_set(sheet, sheet_len, set, answer, answer_len) }
}

/// `yinqocha_check_page`: checks a page of sets of benches, a table. The value is [`PASSED`],
/// [`NOT_PASSED`] or [`LONG`].
///
/// ```
/// use yinqocha::door;
///
/// let sheet = b"\x11\x00\x07\x06\x10\x38\x00\x00\x01\x20\x13\x00\x00";
/// let mut answer = [0xFF; 8 * door::CHECK_PAGE_ENTRIES];
/// let word = door::check_page(Some(sheet), None, Some(&mut answer));
/// assert_eq!((word, answer), (u64::from(door::PASSED), [0; 8]));
/// ```
#[inline]
pub fn check_page(sheet: Option<&[u8]>, page: Option<&[u8]>, answer: Option<&mut [u8]>) -> u64 {
    let (sheet, sheet_len) = read_only(sheet);
    let (page, page_len) = read_only(page);
    let (answer, answer_len) = written(answer);
    // SAFETY: each pointer and length is one slice's, or NULL and 0; `answer` overlaps no other.
    unsafe { yinqocha_check_page(sheet, sheet_len, page, page_len, answer, answer_len) }
}

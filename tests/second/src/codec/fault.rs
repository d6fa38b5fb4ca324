//! Fault numbers. Those to 13 stand in the checking order of document 01.

/// "The sheet is longer than 65,536 bytes (place 0)."
pub const SHEET_TOO_LONG: u32 = 1;
/// "The sheet ends inside a frame of any version (place: that frame), or its frames are over and
/// none was an end frame (place: the sheet's length)."
pub const SHEET_CUT: u32 = 2;
/// "A version 1 frame has a kind other than 1, 2, 3." "Kind 4 leaves fault 3".
pub const UNKNOWN_KIND: u32 = 3;
/// "A version 1 frame is out of its place: a job or end before the head, a second head, or any
/// after the end." "Bookings stand after the head and before the first job, otherwise fault 4."
pub const OUT_OF_PLACE: u32 = 4;
/// "The body length is not that of its kind."
pub const BODY_LENGTH: u32 = 5;
/// "A spare bit is 1."
pub const SPARE_BIT: u32 = 6;
/// "The head has 0 benches or more than 64."
pub const BENCHES: u32 = 7;
/// "The share is bad: q is 0, or 7p < 4q, or p ≥ q."
pub const SHARE: u32 = 8;
/// "It is the 513th job."
pub const TOO_MANY_JOBS: u32 = 9;
/// "No sheet meets fault 10 any more; the writer keeps it for minutes too wide for the field." A
/// job for which the writer's table of minutes has no entry counts here too.
pub const MINUTES: u32 = 10;
/// "A job allows no bench, or a bench the head lacks."
pub const ALLOWED: u32 = 11;
/// "After the whole sheet: a job allows three or more benches and q × minutes > p × W, with W the
/// longest job's minutes (place: the lowest such job number)."
pub const LONG_JOB_WITH_CHOICE: u32 = 12;
/// A table, or the writer's output, is too short (place 0).
pub const NO_ROOM: u32 = 13;
/// "after fault 6, number 14 says that the bench is not in the head or, from the writer, that the
/// minutes are too wide for the field". The writer "tries 14 between faults 8 and 9".
pub const BOOKING: u32 = 14;
/// "then number 15 that the bench already had a booking frame".
pub const BOOKED_TWICE: u32 = 15;
/// "number 16 says that the list does not have one place a job".
pub const LIST: u32 = 16;
/// "number 17 that the set is empty or names a bench not in the head".
pub const SET: u32 = 17;
/// "number 18, that it shares a bench with an earlier one": a set on a page.
pub const SHARED: u32 = 18;

/// "A fault returns its number and place."
#[derive(Clone, Copy, Debug, PartialEq, Eq)]
pub struct Fault {
    pub number: u32,
    pub place: usize,
}

impl Fault {
    pub fn new(number: u32, place: usize) -> Fault {
        Fault { number, place }
    }
}

//! Faults: what is wrong with a sheet, with fields, or with what is to be checked.

use crate::door;
use core::error::Error;
use core::fmt::{self, Display, Formatter};

/// The call that met a fault. It decides what the fault's number and place mean.
///
/// ```
/// use yinqocha::{Call, Sheet};
///
/// assert_eq!(Sheet::read(&[]).map_err(|fault| fault.call()), Err(Call::Read));
/// ```
#[derive(Clone, Copy, Debug, PartialEq, Eq, Hash)]
pub enum Call {
    /// [`Sheet::write`](crate::Sheet::write)
    Write,
    /// [`Sheet::read`](crate::Sheet::read)
    Read,
    /// [`Sheet::plan`](crate::Sheet::plan)
    Plan,
    /// [`Sheet::best`](crate::Sheet::best)
    Best,
    /// [`Sheet::compare`](crate::Sheet::compare)
    Compare,
    /// [`Sheet::check_plan`](crate::Sheet::check_plan)
    CheckPlan,
    /// [`Sheet::check_set`](crate::Sheet::check_set)
    CheckSet,
    /// [`Sheet::check_page`](crate::Sheet::check_page)
    CheckPage,
}

/// What is wrong, by its number, and where, by its place. It is shown in words.
///
/// ```
/// use yinqocha::{Benches, Fault, Head, Job, Share, Sheet};
///
/// let head = Head { benches: 2, share: Share { p: 4, q: 7 }, target: 9 };
/// let job = Job { minutes: 5, allowed: Benches::first(3) };
/// let fault = Sheet::write(head, &[], &[job]).err().ok_or("no fault")?;
/// assert_eq!((fault.number(), fault.place()), (Fault::BAD_ALLOWED, 0));
/// assert_eq!(fault.to_string(), "job 0 allows no bench, or one that the head lacks");
/// # Ok::<(), &str>(())
/// ```
#[derive(Clone, Copy, Debug, PartialEq, Eq, Hash)]
pub struct Fault {
    call: Call,
    number: u32,
    place: u32,
}

/// The numbers of the faults. "Frame" means the first byte of the faulty frame, counted from the
/// start of the sheet.
impl Fault {
    /// The sheet is longer than 65,536 bytes (0).
    pub const SHEET_TOO_LONG: u32 = 1;
    /// The sheet ends inside a frame of any version (frame), or its frames are over and none was an
    /// end frame (the sheet's length).
    pub const SHEET_CUT: u32 = 2;
    /// A version 1 frame has a kind other than 1, 2, 3, 4 (frame).
    pub const UNKNOWN_KIND: u32 = 3;
    /// A version 1 frame is out of its place (frame).
    pub const OUT_OF_PLACE: u32 = 4;
    /// The body length is not that of its kind (frame).
    pub const BODY_LENGTH: u32 = 5;
    /// A spare bit is 1 (frame).
    pub const SPARE_BIT: u32 = 6;
    /// The head has 0 benches or more than 64 (read: frame; written: 0). Writing: or the target
    /// does not fit its 30 bits.
    pub const BAD_BENCHES: u32 = 7;
    /// The share is bad: q is 0, or 7p < 4q, or p >= q (read: frame; written: 0). Writing: or p or
    /// q does not fit its 7 bits.
    pub const BAD_SHARE: u32 = 8;
    /// It is the 513th job (read: frame; written: 512).
    pub const TOO_MANY_JOBS: u32 = 9;
    /// Writing: a job's minutes do not fit their 20 bits (the job).
    pub const BAD_MINUTES: u32 = 10;
    /// A job allows no bench, or a bench that the head lacks (read: frame; written: the job).
    pub const BAD_ALLOWED: u32 = 11;
    /// A job allows three or more benches and is longer than the share admits (the job).
    pub const LONG_JOB_WITH_CHOICE: u32 = 12;
    /// A buffer that the call fills is too short (0). Only the functions of [`door`] meet it.
    pub const NO_ROOM: u32 = 13;
    /// Comparing: a list does not give each job one bench that it allows (0 for the first list, 1
    /// for the second). No other call has it, and comparing does not have [`Fault::NO_ROOM`].
    pub const NO_ASSIGNMENT: u32 = 13;
    /// A bench is booked that the head lacks (read: frame; written: the bench). Writing: or its
    /// booked minutes do not fit their 20 bits.
    pub const BAD_BOOKING: u32 = 14;
    /// The bench already had a booking (frame).
    pub const BOOKED_TWICE: u32 = 15;
    /// Checking a plan: the list does not have one place a job (0).
    pub const BAD_LIST: u32 = 16;
    /// Checking a set: it is empty (0), or it has a bench that the head lacks (the lowest such
    /// one). Checking a page: a set of it is so (the set's number on the page).
    pub const BAD_SET: u32 = 17;
    /// Checking a page: a set shares a bench with an earlier one (the later set's number).
    pub const SHARED_BENCH: u32 = 18;
    /// The library gave an answer that this crate does not know (its value). It takes a library of
    /// another version than the crate's to meet it.
    pub const UNKNOWN_ANSWER: u32 = u32::MAX;
}

impl Fault {
    /// The value of a result word, or its fault.
    pub(crate) fn of(call: Call, word: u64) -> Result<u32, Fault> {
        match door::fault(word) {
            0 => Ok(door::value(word)),
            number => Err(Fault { call, number, place: door::value(word) }),
        }
    }

    pub(crate) const fn unknown_answer(call: Call, place: u32) -> Fault {
        Fault { call, number: Fault::UNKNOWN_ANSWER, place }
    }

    pub(crate) const fn at(self, place: u32) -> Fault {
        Fault { place, ..self }
    }

    /// The call that met the fault.
    ///
    /// ```
    /// # use yinqocha::{Call, Sheet};
    /// assert_eq!(Sheet::read(b"\x11").map_err(|fault| fault.call()), Err(Call::Read));
    /// ```
    pub const fn call(self) -> Call {
        self.call
    }

    /// The number of the fault, one of the constants.
    ///
    /// ```
    /// # use yinqocha::{Fault, Sheet};
    /// assert_eq!(Sheet::read(b"\x11").map_err(Fault::number), Err(Fault::SHEET_CUT));
    /// ```
    pub const fn number(self) -> u32 {
        self.number
    }

    /// Where the fault is. What it counts depends on call and number.
    ///
    /// ```
    /// # use yinqocha::{Fault, Sheet};
    /// assert_eq!(Sheet::read(b"\x21\x00\x00\x11").map_err(Fault::place), Err(3));
    /// ```
    pub const fn place(self) -> u32 {
        self.place
    }

    /// A fault of a field that is written, or of one that is read from a frame.
    fn fmt_field(self, f: &mut Formatter<'_>) -> fmt::Result {
        let Fault { number, place, .. } = self;
        let is_written = self.call == Call::Write;
        match (number, is_written) {
            (Fault::BAD_BENCHES, true) => f.write_str(
                "the head has 0 benches or more than 64, or a target that does not fit its 30 bits",
            ),
            (Fault::BAD_BENCHES, false) => {
                write!(f, "the head at byte {place} has 0 benches or more than 64")
            }
            (Fault::BAD_SHARE, true) => f.write_str(
                "the share is bad: q is 0, or 7p < 4q, or p >= q, or one does not fit its 7 bits",
            ),
            (Fault::BAD_SHARE, false) => {
                write!(f, "the head at byte {place} has a bad share: q is 0, or 7p < 4q, or p >= q")
            }
            (Fault::TOO_MANY_JOBS, true) => f.write_str("there are more than 512 jobs"),
            (Fault::TOO_MANY_JOBS, false) => write!(f, "the job at byte {place} is the 513th"),
            (Fault::BAD_ALLOWED, true) => {
                write!(f, "job {place} allows no bench, or one that the head lacks")
            }
            (Fault::BAD_ALLOWED, false) => {
                write!(f, "the job at byte {place} allows no bench, or one that the head lacks")
            }
            (Fault::BAD_BOOKING, true) => write!(
                f,
                "bench {place} is booked, and the head lacks it or the minutes do not fit their \
                 20 bits"
            ),
            _ => write!(f, "the booking at byte {place} is of a bench that the head lacks"),
        }
    }

    /// A fault of a list, of a set or of a page, or of the room for an answer.
    fn fmt_paper(self, f: &mut Formatter<'_>) -> fmt::Result {
        let Fault { call, number, place } = self;
        match (number, call, place) {
            (Fault::NO_ASSIGNMENT, Call::Compare, 0) => {
                f.write_str("the first list does not give each job one bench that it allows")
            }
            (Fault::NO_ASSIGNMENT, Call::Compare, _) => {
                f.write_str("the second list does not give each job one bench that it allows")
            }
            (Fault::NO_ROOM, ..) => f.write_str("a buffer that the call fills is too short"),
            (Fault::BAD_LIST, ..) => f.write_str("the list does not have one place a job"),
            (Fault::BAD_SET, Call::CheckPage, _) => {
                write!(f, "set {place} of the page is empty, or has a bench that the head lacks")
            }
            (Fault::BAD_SET, _, 0) => f.write_str("the set is empty"),
            (Fault::BAD_SET, ..) => write!(f, "the set has bench {place}, which the head lacks"),
            _ => write!(f, "set {place} of the page shares a bench with an earlier set"),
        }
    }
}

impl Display for Fault {
    fn fmt(&self, f: &mut Formatter<'_>) -> fmt::Result {
        let Fault { number, place, .. } = *self;
        match number {
            Fault::SHEET_TOO_LONG => f.write_str("the sheet is longer than 65,536 bytes"),
            Fault::SHEET_CUT => write!(
                f,
                "the sheet is cut: it ends inside the frame at byte {place}, or there without an \
                 end frame"
            ),
            Fault::UNKNOWN_KIND => {
                write!(f, "the frame at byte {place} has a kind other than 1, 2, 3, 4")
            }
            Fault::OUT_OF_PLACE => write!(f, "the frame at byte {place} is out of its place"),
            Fault::BODY_LENGTH => {
                write!(f, "the frame at byte {place} has a body length that is not of its kind")
            }
            Fault::SPARE_BIT => write!(f, "the frame at byte {place} has a spare bit that is 1"),
            Fault::BAD_MINUTES => {
                write!(f, "the minutes of job {place} do not fit their 20 bits")
            }
            Fault::LONG_JOB_WITH_CHOICE => write!(
                f,
                "job {place} allows three or more benches and is longer than the share of the \
                 longest job"
            ),
            Fault::BOOKED_TWICE => {
                write!(f, "the booking at byte {place} is of a bench that already had one")
            }
            Fault::BAD_BENCHES
            | Fault::BAD_SHARE
            | Fault::TOO_MANY_JOBS
            | Fault::BAD_ALLOWED
            | Fault::BAD_BOOKING => self.fmt_field(f),
            Fault::NO_ROOM | Fault::BAD_LIST | Fault::BAD_SET | Fault::SHARED_BENCH => {
                self.fmt_paper(f)
            }
            Fault::UNKNOWN_ANSWER => {
                write!(f, "the library gave an answer that is not known, {place}")
            }
            _ => write!(f, "the library gave a fault that is not known, {number} at {place}"),
        }
    }
}

impl Error for Fault {}

//! Sheets: what a day holds, and the bytes that it is written in.

use crate::bench::Bench;
use crate::benches::Benches;
use crate::fault::{Call, Fault};
use crate::fields::{Head, Job, Share};
use crate::table::Table;
use crate::{door, MAX_BENCHES, MAX_JOBS, MAX_WRITTEN_BYTES};
use core::array;
use core::fmt::{self, Debug, Display, Formatter};

/// The entries of a table of contents: the head's four, the bookings, and two for each job.
const CONTENTS: usize = 4 + MAX_BENCHES + 2 * MAX_JOBS;

/// One day of a test bay, without a fault. It holds its bytes and what they say, about 16 KiB.
///
/// ```
/// use yinqocha::{Bench, Benches, Head, Job, Share, Sheet};
///
/// // Three jobs of 5 minutes on bench 0 or 1, bench 1 booked for 4 minutes, target 9.
/// let head = Head { benches: 2, share: Share { p: 4, q: 7 }, target: 9 };
/// let job = Job { minutes: 5, allowed: Benches::first(2) };
/// let sheet = Sheet::write(head, &[0, 4], &[job; 3])?;
/// assert_eq!(sheet.to_string(), "benches 2, share 4/7, target 9, jobs 3");
/// assert_eq!(Sheet::read(sheet.as_bytes())?, sheet);
/// # Ok::<(), yinqocha::Fault>(())
/// ```
#[derive(Clone)]
pub struct Sheet {
    head: Head,
    booked: [u64; MAX_BENCHES],
    jobs: [Job; MAX_JOBS],
    jobs_len: usize,
    bytes: [u8; MAX_WRITTEN_BYTES],
    bytes_len: usize,
}

impl Sheet {
    /// Writes a sheet. Entry b of `booked` is the minutes for which bench b is booked, 0 to 2^20 -
    /// 1, and 0 for a bench that is not there; an entry that it lacks is 0.
    ///
    /// # Errors
    ///
    /// The first fault of the fields, in the order 7, 8, then 14 for each bench, then 9, 10 and 11
    /// for each job, then 12.
    ///
    /// ```
    /// # use yinqocha::{Benches, Fault, Head, Job, Share, Sheet};
    /// let head = Head { benches: 2, share: Share { p: 4, q: 7 }, target: 9 };
    /// let job = Job { minutes: 5, allowed: Benches::first(2) };
    /// let sheet = Sheet::write(head, &[0, 4], &[job; 3])?;
    /// assert_eq!(sheet.as_bytes().len(), 62);
    ///
    /// let fault = Sheet::write(head, &[0, 0, 4], &[job; 3]).map_err(Fault::number);
    /// assert_eq!(fault, Err(Fault::BAD_BOOKING));
    /// # Ok::<(), Fault>(())
    /// ```
    pub fn write(head: Head, booked: &[u64], jobs: &[Job]) -> Result<Sheet, Fault> {
        let Head { benches, share: Share { p, q }, target } = head;
        let bookings = Bookings::of(booked);
        // The 513th job is a fault whatever it is, and none behind it is looked at.
        let minutes: Table<{ MAX_JOBS + 1 }> = Table::of(jobs.iter().map(|job| job.minutes));
        let allowed: Table<{ MAX_JOBS + 1 }> = Table::of(jobs.iter().map(|job| job.allowed.bits()));
        let mut bytes = [0; MAX_WRITTEN_BYTES];
        let word = door::write(
            [benches, p, q, target],
            Some(bookings.table.first(bookings.entries)),
            Some(minutes.first(jobs.len())),
            Some(allowed.first(jobs.len())),
            Some(&mut bytes),
        );
        let len = Fault::of(Call::Write, word).map_err(|fault| bookings.told(fault))?;
        let mut sheet = Sheet {
            head,
            booked: [0; MAX_BENCHES],
            jobs: [Job::NONE; MAX_JOBS],
            jobs_len: jobs.len(),
            bytes,
            bytes_len: len as usize,
        };
        fill(&mut sheet.booked, booked.iter().copied());
        fill(&mut sheet.jobs, jobs.iter().copied());
        Ok(sheet)
    }

    /// Reads the bytes of a sheet.
    ///
    /// # Errors
    ///
    /// The first fault of the sheet: 1, then 2 to 9, 11, 14 and 15 frame by frame, then 12.
    ///
    /// ```
    /// # use yinqocha::{Fault, Sheet};
    /// let bytes = b"\x11\x00\x07\x06\x10\x38\x00\x00\x01\x20\x13\x00\x00";
    /// assert_eq!(Sheet::read(bytes)?.benches(), 3);
    /// assert_eq!(Sheet::read(&bytes[..12]).map_err(Fault::number), Err(Fault::SHEET_CUT));
    /// # Ok::<(), Fault>(())
    /// ```
    pub fn read(bytes: &[u8]) -> Result<Sheet, Fault> {
        let mut contents = Table::<CONTENTS>::new();
        let word = door::read(Some(bytes), Some(contents.bytes_mut()));
        let count = Fault::of(Call::Read, word)?;
        let mut numbers = contents.numbers().into_iter();
        let mut next = || numbers.next().unwrap_or(0);
        let [benches, p, q, target] = array::from_fn(|_| next());
        let booked: [u64; MAX_BENCHES] = array::from_fn(|_| next());
        let jobs: [Job; MAX_JOBS] =
            array::from_fn(|_| Job { minutes: next(), allowed: Benches::from_bits(next()) });
        let Some(jobs) = jobs.get(..count as usize) else {
            return Err(Fault::unknown_answer(Call::Read, count));
        };
        Sheet::write(Head { benches, share: Share { p, q }, target }, &booked, jobs)
    }

    /// The same sheet with another target.
    ///
    /// # Errors
    ///
    /// The fault [`Fault::BAD_BENCHES`] where the target does not fit its 30 bits.
    ///
    /// ```
    /// # use yinqocha::{Head, Share, Sheet};
    /// let head = Head { benches: 2, share: Share { p: 4, q: 7 }, target: 9 };
    /// let sheet = Sheet::write(head, &[], &[])?;
    /// assert_eq!(sheet.with_target(8)?.target(), 8);
    /// assert!(sheet.with_target(1 << 30).is_err());
    /// # Ok::<(), yinqocha::Fault>(())
    /// ```
    pub fn with_target(&self, target: u64) -> Result<Sheet, Fault> {
        Sheet::write(Head { target, ..self.head }, &self.booked, self.jobs())
    }

    /// The head.
    ///
    /// ```
    /// # use yinqocha::Sheet;
    /// let sheet = Sheet::read(b"\x11\x00\x07\x06\x10\x38\x00\x00\x01\x20\x13\x00\x00")?;
    /// assert_eq!(sheet.head().benches, 3);
    /// # Ok::<(), yinqocha::Fault>(())
    /// ```
    pub const fn head(&self) -> Head {
        self.head
    }

    /// How many benches there are.
    ///
    /// ```
    /// # use yinqocha::Sheet;
    /// let sheet = Sheet::read(b"\x11\x00\x07\x06\x10\x38\x00\x00\x01\x20\x13\x00\x00")?;
    /// assert_eq!(sheet.benches(), 3);
    /// # Ok::<(), yinqocha::Fault>(())
    /// ```
    pub const fn benches(&self) -> u64 {
        self.head.benches
    }

    /// The share.
    ///
    /// ```
    /// # use yinqocha::{Share, Sheet};
    /// let sheet = Sheet::read(b"\x11\x00\x07\x06\x10\x38\x00\x00\x01\x20\x13\x00\x00")?;
    /// assert_eq!(sheet.share(), Share { p: 4, q: 7 });
    /// # Ok::<(), yinqocha::Fault>(())
    /// ```
    pub const fn share(&self) -> Share {
        self.head.share
    }

    /// The target in minutes.
    ///
    /// ```
    /// # use yinqocha::Sheet;
    /// let sheet = Sheet::read(b"\x11\x00\x07\x06\x10\x38\x00\x00\x01\x20\x13\x00\x00")?;
    /// assert_eq!(sheet.target(), 9);
    /// # Ok::<(), yinqocha::Fault>(())
    /// ```
    pub const fn target(&self) -> u64 {
        self.head.target
    }

    /// The minutes for which a bench is booked, 0 for one that is not booked or not there.
    ///
    /// ```
    /// # use yinqocha::{Benches, Head, Share, Sheet};
    /// let head = Head { benches: 3, share: Share { p: 4, q: 7 }, target: 9 };
    /// let sheet = Sheet::write(head, &[0, 4], &[])?;
    /// let booked: Vec<u64> = Benches::first(3).iter().map(|bench| sheet.booked(bench)).collect();
    /// assert_eq!(booked, [0, 4, 0]);
    /// # Ok::<(), yinqocha::Fault>(())
    /// ```
    pub fn booked(&self, bench: Bench) -> u64 {
        self.booked.get(usize::from(bench)).copied().unwrap_or(0)
    }

    /// The jobs, job 0 first.
    ///
    /// ```
    /// # use yinqocha::{Benches, Head, Job, Share, Sheet};
    /// let head = Head { benches: 2, share: Share { p: 4, q: 7 }, target: 9 };
    /// let jobs = [5, 3].map(|minutes| Job { minutes, allowed: Benches::first(2) });
    /// assert_eq!(Sheet::write(head, &[], &jobs)?.jobs(), jobs);
    /// # Ok::<(), yinqocha::Fault>(())
    /// ```
    pub fn jobs(&self) -> &[Job] {
        self.jobs.get(..self.jobs_len).unwrap_or(&self.jobs)
    }

    /// The bytes of the sheet as the library writes them: the head, the bookings above 0 by rising
    /// bench, the jobs in order, and the end. Of a sheet that was read they lack what
    /// [`Sheet::read`] passed over, frames of other versions and bookings of 0 minutes.
    ///
    /// ```
    /// # use yinqocha::Sheet;
    /// let bytes = b"\x11\x00\x07\x06\x10\x38\x00\x00\x01\x20\x13\x00\x00";
    /// assert_eq!(Sheet::read(bytes)?.as_bytes(), bytes);
    /// # Ok::<(), yinqocha::Fault>(())
    /// ```
    pub fn as_bytes(&self) -> &[u8] {
        self.bytes.get(..self.bytes_len).unwrap_or(&self.bytes)
    }
}

/// A table of bookings. Entries past the 64th are at fault unless they are 0, so the first of them
/// that is not stands for all of them, as entry 64.
struct Bookings {
    table: Table<{ MAX_BENCHES + 1 }>,
    entries: usize,
    /// The number of the entry that entry 64 stands for.
    stray: usize,
}

impl Bookings {
    fn of(booked: &[u64]) -> Bookings {
        let (benches, others) = booked.split_at_checked(MAX_BENCHES).unwrap_or((booked, &[]));
        let stray = others.iter().position(|&minutes| minutes > 0).unwrap_or(0);
        let stands_for = others.get(stray).copied();
        Bookings {
            table: Table::of(benches.iter().copied().chain(stands_for)),
            entries: booked.len(),
            stray: MAX_BENCHES.saturating_add(stray),
        }
    }

    /// The fault with the number of the entry that was given for its place.
    fn told(&self, fault: Fault) -> Fault {
        let of_stray = fault.number() == Fault::BAD_BOOKING && fault.place() == MAX_BENCHES as u32;
        if of_stray {
            fault.at(self.stray as u32)
        } else {
            fault
        }
    }
}

fn fill<T>(array: &mut [T], values: impl Iterator<Item = T>) {
    for (entry, value) in array.iter_mut().zip(values) {
        *entry = value;
    }
}

/// Sheets are equal if they hold the same.
impl PartialEq for Sheet {
    fn eq(&self, other: &Sheet) -> bool {
        self.as_bytes() == other.as_bytes()
    }
}

impl Eq for Sheet {}

impl TryFrom<&[u8]> for Sheet {
    type Error = Fault;

    fn try_from(bytes: &[u8]) -> Result<Sheet, Fault> {
        Sheet::read(bytes)
    }
}

impl AsRef<[u8]> for Sheet {
    fn as_ref(&self) -> &[u8] {
        self.as_bytes()
    }
}

impl Debug for Sheet {
    fn fmt(&self, f: &mut Formatter<'_>) -> fmt::Result {
        f.debug_struct("Sheet")
            .field("head", &self.head)
            .field("booked", &self.booked)
            .field("jobs", &self.jobs())
            .finish()
    }
}

impl Display for Sheet {
    fn fmt(&self, f: &mut Formatter<'_>) -> fmt::Result {
        let Head { benches, share, target } = self.head;
        let jobs = self.jobs_len;
        write!(f, "benches {benches}, share {share}, target {target}, jobs {jobs}")
    }
}

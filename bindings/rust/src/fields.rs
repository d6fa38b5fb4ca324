//! What a sheet is written from: its head and its jobs.

use crate::benches::Benches;
use core::fmt::{self, Display, Formatter};

/// The share p/q: at least 4/7 and less than 1, each number at most 127.
///
/// It says how long a job with three or more benches may be, at most p/q of the longest job's
/// minutes, and how far a plan may go beyond the target T, to (5/3 + p/(3q)) * T.
///
/// ```
/// use yinqocha::Share;
///
/// assert_eq!(Share { p: 4, q: 7 }.to_string(), "4/7");
/// ```
#[derive(Clone, Copy, Debug, PartialEq, Eq, Hash)]
pub struct Share {
    /// The upper number.
    pub p: u64,
    /// The lower number.
    pub q: u64,
}

impl Display for Share {
    fn fmt(&self, f: &mut Formatter<'_>) -> fmt::Result {
        write!(f, "{}/{}", self.p, self.q)
    }
}

/// The head of a sheet.
///
/// ```
/// use yinqocha::{Head, Share, Sheet};
///
/// let head = Head { benches: 3, share: Share { p: 4, q: 7 }, target: 9 };
/// assert_eq!(Sheet::write(head, &[], &[])?.head(), head);
/// # Ok::<(), yinqocha::Fault>(())
/// ```
#[derive(Clone, Copy, Debug, PartialEq, Eq, Hash)]
pub struct Head {
    /// How many benches there are, 1 to 64.
    pub benches: u64,
    /// The share.
    pub share: Share,
    /// The target in minutes, 0 to 2^30 - 1.
    pub target: u64,
}

/// A job: its minutes, and the benches that may take it.
///
/// ```
/// use yinqocha::{Benches, Head, Job, Share, Sheet};
///
/// let head = Head { benches: 2, share: Share { p: 4, q: 7 }, target: 9 };
/// let check = Job { minutes: 0, allowed: Benches::first(2) };
/// assert_eq!(Sheet::write(head, &[], &[check])?.jobs(), [check]);
/// # Ok::<(), yinqocha::Fault>(())
/// ```
#[derive(Clone, Copy, Debug, PartialEq, Eq, Hash)]
pub struct Job {
    /// The minutes, 0 to 2^20 - 1. A job of 0 minutes is a check that takes no bench time.
    pub minutes: u64,
    /// The benches that may take the job, at least one, each one of the head's.
    pub allowed: Benches,
}

impl Job {
    /// What stands behind the last job of a sheet.
    pub(crate) const NONE: Job = Job { minutes: 0, allowed: Benches::EMPTY };
}

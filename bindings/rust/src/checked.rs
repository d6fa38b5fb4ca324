//! What comparisons and checks say.

use crate::bench::Bench;
use core::fmt::{self, Display, Formatter};

/// What comparing two lists of places says.
///
/// ```
/// use yinqocha::{Benches, Comparison, Head, Job, Share, Sheet};
///
/// let head = Head { benches: 2, share: Share { p: 4, q: 7 }, target: 9 };
/// let job = Job { minutes: 5, allowed: Benches::first(2) };
/// let sheet = Sheet::write(head, &[], &[job; 2])?;
/// assert_eq!(sheet.compare(&[0_u8, 1], &[1_u8, 0])?, Comparison::Different);
/// # Ok::<(), yinqocha::Fault>(())
/// ```
#[derive(Clone, Copy, Debug, PartialEq, Eq, Hash)]
pub enum Comparison {
    /// Every job is on the same bench.
    Same,
    /// Some job is on another bench.
    Different,
}

impl Display for Comparison {
    fn fmt(&self, f: &mut Formatter<'_>) -> fmt::Result {
        f.write_str(match self {
            Comparison::Same => "the same",
            Comparison::Different => "different",
        })
    }
}

/// What checking a list of places says.
///
/// ```
/// use yinqocha::{Benches, Head, Job, PlanCheck, Share, Sheet};
///
/// let head = Head { benches: 2, share: Share { p: 4, q: 7 }, target: 9 };
/// let job = Job { minutes: 5, allowed: Benches::first(1) };
/// let sheet = Sheet::write(head, &[], &[job; 2])?;
/// assert_eq!(sheet.check_plan(&[0_u8, 1])?, PlanCheck::NotPassed);
/// # Ok::<(), yinqocha::Fault>(())
/// ```
#[derive(Clone, Copy, Debug, PartialEq, Eq, Hash)]
pub enum PlanCheck {
    /// Each job is on a bench that it allows, and no bench is loaded above the bound.
    Passed {
        /// The largest load.
        largest: u64,
        /// The bench with that load, the lowest if several are as full.
        fullest: Bench,
    },
    /// A job is on a bench that it does not allow, or a bench is loaded above the bound.
    NotPassed,
}

impl Display for PlanCheck {
    fn fmt(&self, f: &mut Formatter<'_>) -> fmt::Result {
        match self {
            PlanCheck::Passed { largest, fullest } => {
                write!(f, "passed, largest load {largest} on bench {fullest}")
            }
            PlanCheck::NotPassed => f.write_str("not passed"),
        }
    }
}

/// What checking a set of benches says.
///
/// ```
/// use yinqocha::{Benches, Head, Share, Sheet, SetCheck};
///
/// let head = Head { benches: 2, share: Share { p: 4, q: 7 }, target: 9 };
/// let sheet = Sheet::write(head, &[10, 9], &[])?;
/// assert_eq!(sheet.check_set(Benches::first(1))?, SetCheck::Passed);
/// # Ok::<(), yinqocha::Fault>(())
/// ```
#[derive(Clone, Copy, Debug, PartialEq, Eq, Hash)]
pub enum SetCheck {
    /// The set is blocking: no assignment keeps every bench within the target.
    Passed,
    /// The set is not blocking.
    NotPassed,
    /// A job has more minutes than the target. The set is not judged, and no assignment keeps every
    /// bench within the target.
    Long {
        /// The lowest such job.
        job: usize,
    },
}

impl Display for SetCheck {
    fn fmt(&self, f: &mut Formatter<'_>) -> fmt::Result {
        match self {
            SetCheck::Passed => f.write_str("passed"),
            SetCheck::NotPassed => f.write_str("not passed"),
            SetCheck::Long { job } => write!(f, "job {job} is longer than the target"),
        }
    }
}

/// What checking a page of sets says.
///
/// ```
/// use yinqocha::{Benches, Head, PageCheck, Share, Sheet};
///
/// let head = Head { benches: 2, share: Share { p: 4, q: 7 }, target: 9 };
/// let sheet = Sheet::write(head, &[10, 9], &[])?;
/// let page = [Benches::of([0]), Benches::of([1])].map(Option::unwrap_or_default);
/// assert_eq!(sheet.check_page(&page)?, PageCheck::NotPassed { set: 1 });
/// # Ok::<(), yinqocha::Fault>(())
/// ```
#[derive(Clone, Copy, Debug, PartialEq, Eq, Hash)]
pub enum PageCheck {
    /// Every set is blocking, or there is none. The union of the sets is blocking, if there is one.
    Passed,
    /// A set is not blocking.
    NotPassed {
        /// The first such set by its number on the page.
        set: usize,
    },
    /// A job has more minutes than the target. No set is judged, and no assignment keeps every
    /// bench within the target.
    Long {
        /// The lowest such job.
        job: usize,
    },
}

impl Display for PageCheck {
    fn fmt(&self, f: &mut Formatter<'_>) -> fmt::Result {
        match self {
            PageCheck::Passed => f.write_str("passed"),
            PageCheck::NotPassed { set } => write!(f, "set {set} is not blocking"),
            PageCheck::Long { job } => write!(f, "job {job} is longer than the target"),
        }
    }
}

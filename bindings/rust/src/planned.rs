//! What planning says: plans, refusals and the best target.

use crate::bench::Bench;
use crate::benches::Benches;
use crate::{MAX_BENCHES, MAX_JOBS};
use core::error::Error;
use core::fmt::{self, Debug, Display, Formatter};

/// A plan: each job has one of its benches, and no bench is loaded above the bound,
/// 3q * load <= (5q + p) * target.
///
/// ```
/// use yinqocha::{Bench, Benches, Head, Job, Share, Sheet};
///
/// let head = Head { benches: 2, share: Share { p: 4, q: 7 }, target: 4 };
/// let jobs = [2, 2, 2, 2, 0].map(|minutes| Job { minutes, allowed: Benches::first(2) });
/// let plan = Sheet::write(head, &[2, 3], &jobs)?.plan()??;
///
/// let places: Vec<u64> = plan.places().iter().copied().map(Bench::number).collect();
/// assert_eq!(places, [1, 1, 0, 0, 0]);
/// assert_eq!(plan.loads(), [6, 7]);
/// assert_eq!(plan.to_string(), "largest load 7 on bench 1, moves 2");
/// # Ok::<(), Box<dyn std::error::Error>>(())
/// ```
#[derive(Clone, PartialEq, Eq)]
pub struct Plan {
    pub(crate) places: [Bench; MAX_JOBS],
    pub(crate) places_len: usize,
    pub(crate) loads: [u64; MAX_BENCHES],
    pub(crate) loads_len: usize,
    pub(crate) largest: u64,
    pub(crate) moves: u64,
    pub(crate) fullest: Bench,
}

impl Plan {
    /// The bench of each job, job 0 first.
    ///
    /// ```
    /// # use yinqocha::{Bench, Benches, Head, Job, Share, Sheet};
    /// # let head = Head { benches: 2, share: Share { p: 4, q: 7 }, target: 9 };
    /// # let bench_1 = Benches::of([1]).ok_or("no bench")?;
    /// let sheet = Sheet::write(head, &[], &[Job { minutes: 5, allowed: bench_1 }])?;
    /// let plan = sheet.plan()??;
    /// assert_eq!(plan.places().first().copied(), Bench::new(1));
    /// # Ok::<(), Box<dyn std::error::Error>>(())
    /// ```
    pub fn places(&self) -> &[Bench] {
        self.places.get(..self.places_len).unwrap_or(&self.places)
    }

    /// The jobs that a bench has, by rising number.
    ///
    /// ```
    /// # use yinqocha::{Bench, Benches, Head, Job, Share, Sheet};
    /// # let head = Head { benches: 2, share: Share { p: 4, q: 7 }, target: 9 };
    /// let job = Job { minutes: 3, allowed: Benches::first(1) };
    /// let plan = Sheet::write(head, &[], &[job; 3])?.plan()??;
    /// let bench = Bench::new(0).ok_or("no bench")?;
    /// assert_eq!(plan.jobs_on(bench).collect::<Vec<usize>>(), [0, 1, 2]);
    /// # Ok::<(), Box<dyn std::error::Error>>(())
    /// ```
    pub fn jobs_on(&self, bench: Bench) -> impl Iterator<Item = usize> + '_ {
        let numbered = self.places().iter().enumerate();
        numbered.filter(move |&(_, &place)| place == bench).map(|(job, _)| job)
    }

    /// The load of each bench in minutes, bench 0 first, its booking included.
    ///
    /// ```
    /// # use yinqocha::{Head, Share, Sheet};
    /// # let head = Head { benches: 2, share: Share { p: 4, q: 7 }, target: 9 };
    /// assert_eq!(Sheet::write(head, &[0, 4], &[])?.plan()??.loads(), [0, 4]);
    /// # Ok::<(), Box<dyn std::error::Error>>(())
    /// ```
    pub fn loads(&self) -> &[u64] {
        self.loads.get(..self.loads_len).unwrap_or(&self.loads)
    }

    /// The largest load.
    ///
    /// ```
    /// # use yinqocha::{Head, Share, Sheet};
    /// # let head = Head { benches: 2, share: Share { p: 4, q: 7 }, target: 9 };
    /// assert_eq!(Sheet::write(head, &[0, 4], &[])?.plan()??.largest(), 4);
    /// # Ok::<(), Box<dyn std::error::Error>>(())
    /// ```
    pub const fn largest(&self) -> u64 {
        self.largest
    }

    /// How many times the planner put a job on another bench on its way to the plan.
    ///
    /// ```
    /// # use yinqocha::{Head, Share, Sheet};
    /// # let head = Head { benches: 2, share: Share { p: 4, q: 7 }, target: 9 };
    /// assert_eq!(Sheet::write(head, &[0, 4], &[])?.plan()??.moves(), 0);
    /// # Ok::<(), Box<dyn std::error::Error>>(())
    /// ```
    pub const fn moves(&self) -> u64 {
        self.moves
    }

    /// The bench with the largest load, the lowest if several are as full.
    ///
    /// ```
    /// # use yinqocha::{Bench, Head, Share, Sheet};
    /// # let head = Head { benches: 2, share: Share { p: 4, q: 7 }, target: 9 };
    /// assert_eq!(Sheet::write(head, &[0, 4], &[])?.plan()??.fullest().number(), 1);
    /// # Ok::<(), Box<dyn std::error::Error>>(())
    /// ```
    pub const fn fullest(&self) -> Bench {
        self.fullest
    }
}

impl Debug for Plan {
    fn fmt(&self, f: &mut Formatter<'_>) -> fmt::Result {
        f.debug_struct("Plan")
            .field("places", &self.places())
            .field("loads", &self.loads())
            .field("largest", &self.largest)
            .field("moves", &self.moves)
            .field("fullest", &self.fullest)
            .finish()
    }
}

impl Display for Plan {
    fn fmt(&self, f: &mut Formatter<'_>) -> fmt::Result {
        let Plan { largest, fullest, moves, .. } = self;
        write!(f, "largest load {largest} on bench {fullest}, moves {moves}")
    }
}

/// Why there is no plan: no assignment keeps every bench within the target.
///
/// ```
/// use yinqocha::{Benches, Head, Job, Refusal, Share, Sheet};
///
/// let head = Head { benches: 2, share: Share { p: 4, q: 7 }, target: 4 };
/// let job = Job { minutes: 5, allowed: Benches::first(2) };
/// let refusal = Sheet::write(head, &[], &[job])?.plan()?;
/// assert_eq!(refusal, Err(Refusal::Long { job: 0 }));
///
/// let head = Head { target: 8, ..head };
/// let refusal = Sheet::write(head, &[], &[job; 3])?.plan()?.map_err(|why| why.to_string());
/// assert_eq!(refusal, Err("the set of benches 0,1 is blocking".to_string()));
/// # Ok::<(), yinqocha::Fault>(())
/// ```
#[derive(Clone, Copy, Debug, PartialEq, Eq, Hash)]
pub enum Refusal {
    /// A job has more minutes than the target.
    Long {
        /// The lowest such job.
        job: usize,
    },
    /// What must lie on a set of k benches, booked minutes included, weighs more than k times the
    /// target, however the jobs are placed.
    None {
        /// The blocking set.
        set: Benches,
        /// How many times the planner put a job on another bench on its way to the answer.
        moves: u64,
    },
}

impl Display for Refusal {
    fn fmt(&self, f: &mut Formatter<'_>) -> fmt::Result {
        match self {
            Refusal::Long { job } => write!(f, "job {job} is longer than the target"),
            Refusal::None { set, .. } => write!(f, "the set of benches {set} is blocking"),
        }
    }
}

impl Error for Refusal {}

/// The best target that the planner can vouch for, with its plan.
///
/// The target is 0 or the one below is refused, and every assignment has a largest load of at least
/// the target. So the plan's largest load is within (5/3 + p/(3q)) times the best possible one.
///
/// ```
/// use yinqocha::{Benches, Head, Job, Share, Sheet};
///
/// let head = Head { benches: 2, share: Share { p: 4, q: 7 }, target: 0 };
/// let jobs = [2, 2, 2, 2, 0].map(|minutes| Job { minutes, allowed: Benches::first(2) });
/// let best = Sheet::write(head, &[2, 3], &jobs)?.best()?;
/// assert_eq!((best.target, best.runs, best.plan.largest()), (4, 5, 7));
/// # Ok::<(), yinqocha::Fault>(())
/// ```
#[derive(Clone, Debug, PartialEq, Eq)]
pub struct Best {
    /// The target in minutes.
    pub target: u64,
    /// The number of targets that the search ran, 1 to 31.
    pub runs: u64,
    /// The plan with this target.
    pub plan: Plan,
}

impl Display for Best {
    fn fmt(&self, f: &mut Formatter<'_>) -> fmt::Result {
        let Best { target, runs, plan } = self;
        write!(f, "best target {target}, targets run {runs}, {plan}")
    }
}

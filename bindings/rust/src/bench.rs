//! Benches.

use crate::MAX_BENCHES;
use core::fmt::{self, Display, Formatter};

/// The bit of bench 0 in the number of a set of benches.
const BENCH_0: u64 = 1 << 63;

/// A bench by its number, 0 to 63.
///
/// ```
/// use yinqocha::Bench;
///
/// let bench = Bench::new(5).ok_or("no bench")?;
/// assert_eq!((bench.number(), bench.to_string()), (5, "5".to_string()));
/// # Ok::<(), &str>(())
/// ```
#[derive(Clone, Copy, Debug, PartialEq, Eq, PartialOrd, Ord, Hash)]
pub struct Bench(u8);

impl Bench {
    pub(crate) const FIRST: Bench = Bench(0);

    /// The bench of this number, if a sheet can have it.
    ///
    /// ```
    /// # use yinqocha::Bench;
    /// assert!(Bench::new(63).is_some());
    /// assert!(Bench::new(64).is_none());
    /// ```
    pub const fn new(number: u64) -> Option<Bench> {
        if number < MAX_BENCHES as u64 {
            Some(Bench(number as u8))
        } else {
            None
        }
    }

    /// The number of the bench.
    ///
    /// ```
    /// # use yinqocha::Bench;
    /// assert_eq!(Bench::new(63).map(Bench::number), Some(63));
    /// ```
    pub const fn number(self) -> u64 {
        self.0 as u64
    }

    pub(crate) const fn bit(self) -> u64 {
        BENCH_0.wrapping_shr(self.0 as u32)
    }

    pub(crate) fn is_before(self, next: Bench) -> bool {
        self.0.checked_add(1) == Some(next.0)
    }
}

impl Display for Bench {
    fn fmt(&self, f: &mut Formatter<'_>) -> fmt::Result {
        Display::fmt(&self.0, f)
    }
}

impl From<Bench> for u64 {
    fn from(bench: Bench) -> u64 {
        bench.number()
    }
}

/// The bench as an index, into [`Plan::loads`](crate::Plan::loads) for one.
impl From<Bench> for usize {
    fn from(bench: Bench) -> usize {
        usize::from(bench.0)
    }
}

//! Sets of benches.

use crate::bench::Bench;
use crate::MAX_BENCHES;
use core::fmt::{self, Debug, Display, Formatter};
use core::iter::FusedIterator;
use core::ops::BitOr;

/// A set of benches: those that may take a job, or a blocking set.
///
/// ```
/// use yinqocha::{Bench, Benches};
///
/// let set = Benches::of([5, 0, 7, 6, 2]).ok_or("a number is no bench")?;
/// assert_eq!(set.to_string(), "0,2,5-7");
/// let numbers: Vec<u64> = set.iter().map(Bench::number).collect();
/// assert_eq!(numbers, [0, 2, 5, 6, 7]);
/// # Ok::<(), &str>(())
/// ```
#[derive(Clone, Copy, Default, PartialEq, Eq, Hash)]
pub struct Benches(u64);

impl Benches {
    /// The set without a bench.
    pub const EMPTY: Benches = Benches(0);

    /// The benches of these numbers; `None` where a number is no bench, 64 or above.
    ///
    /// ```
    /// # use yinqocha::Benches;
    /// assert_eq!(Benches::of([0, 63]).map(Benches::bits), Some(1 << 63 | 1));
    /// assert_eq!(Benches::of([0, 64]), None);
    /// ```
    pub fn of(numbers: impl IntoIterator<Item = u64>) -> Option<Benches> {
        numbers.into_iter().map(Bench::new).collect()
    }

    /// So many benches from bench 0 on, all 64 where there are no more: those of a head.
    ///
    /// ```
    /// # use yinqocha::Benches;
    /// assert_eq!(Benches::first(3).to_string(), "0-2");
    /// assert!(Benches::first(0).is_empty());
    /// ```
    pub const fn first(count: u64) -> Benches {
        if count < MAX_BENCHES as u64 {
            Benches(!u64::MAX.wrapping_shr(count as u32))
        } else {
            Benches(u64::MAX)
        }
    }

    /// The set that a number of the C door stands for: bench b is the bit of weight 2^(63 - b).
    ///
    /// ```
    /// # use yinqocha::Benches;
    /// assert_eq!(Benches::from_bits(1 << 63), Benches::first(1));
    /// ```
    pub const fn from_bits(bits: u64) -> Benches {
        Benches(bits)
    }

    /// The number that stands for the set at the C door.
    ///
    /// ```
    /// # use yinqocha::Benches;
    /// assert_eq!(Benches::first(2).bits(), 3 << 62);
    /// ```
    pub const fn bits(self) -> u64 {
        self.0
    }

    /// Whether the bench is in the set.
    ///
    /// ```
    /// # use yinqocha::{Bench, Benches};
    /// let bench = Bench::new(2).ok_or("no bench")?;
    /// assert!(Benches::first(3).contains(bench));
    /// assert!(!Benches::first(2).contains(bench));
    /// # Ok::<(), &str>(())
    /// ```
    pub const fn contains(self, bench: Bench) -> bool {
        self.0 & bench.bit() != 0
    }

    /// Puts a bench into the set, and says whether it was not there before.
    ///
    /// ```
    /// # use yinqocha::{Bench, Benches};
    /// let bench = Bench::new(2).ok_or("no bench")?;
    /// let mut set = Benches::EMPTY;
    /// assert!(set.insert(bench));
    /// assert!(!set.insert(bench));
    /// assert_eq!(set.to_string(), "2");
    /// # Ok::<(), &str>(())
    /// ```
    pub fn insert(&mut self, bench: Bench) -> bool {
        let is_new = !self.contains(bench);
        self.0 |= bench.bit();
        is_new
    }

    /// Takes a bench out of the set, and says whether it was there.
    ///
    /// ```
    /// # use yinqocha::{Bench, Benches};
    /// let bench = Bench::new(1).ok_or("no bench")?;
    /// let mut set = Benches::first(3);
    /// assert!(set.remove(bench));
    /// assert!(!set.remove(bench));
    /// assert_eq!(set.to_string(), "0,2");
    /// # Ok::<(), &str>(())
    /// ```
    pub fn remove(&mut self, bench: Bench) -> bool {
        let was_there = self.contains(bench);
        self.0 &= !bench.bit();
        was_there
    }

    /// How many benches the set has.
    ///
    /// ```
    /// # use yinqocha::Benches;
    /// assert_eq!(Benches::first(3).len(), 3);
    /// ```
    pub const fn len(self) -> usize {
        self.0.count_ones() as usize
    }

    /// Whether the set has no bench.
    ///
    /// ```
    /// # use yinqocha::Benches;
    /// assert!(Benches::EMPTY.is_empty());
    /// ```
    pub const fn is_empty(self) -> bool {
        self.0 == 0
    }

    /// The benches of the set, the lowest first.
    ///
    /// ```
    /// # use yinqocha::{Bench, Benches};
    /// let mut benches = Benches::first(2).iter();
    /// assert_eq!(benches.next(), Bench::new(0));
    /// assert_eq!(benches.next(), Bench::new(1));
    /// assert_eq!(benches.next(), None);
    /// ```
    pub const fn iter(self) -> BenchesIter {
        BenchesIter(self.0)
    }
}

/// The numbers of the benches with commas, three or more that follow each other as `5-7`. The empty
/// set is `none`.
impl Display for Benches {
    fn fmt(&self, f: &mut Formatter<'_>) -> fmt::Result {
        if self.is_empty() {
            return f.write_str("none");
        }
        let mut benches = self.iter().peekable();
        let mut comma = "";
        while let Some(first) = benches.next() {
            let mut last = first;
            while let Some(next) = benches.next_if(|&next| last.is_before(next)) {
                last = next;
            }
            write!(f, "{comma}{first}")?;
            if first.is_before(last) {
                write!(f, ",{last}")?;
            } else if first != last {
                write!(f, "-{last}")?;
            }
            comma = ",";
        }
        Ok(())
    }
}

impl Debug for Benches {
    fn fmt(&self, f: &mut Formatter<'_>) -> fmt::Result {
        write!(f, "Benches({self})")
    }
}

impl BitOr for Benches {
    type Output = Benches;

    fn bitor(self, other: Benches) -> Benches {
        Benches(self.0 | other.0)
    }
}

impl From<Bench> for Benches {
    fn from(bench: Bench) -> Benches {
        Benches(bench.bit())
    }
}

impl FromIterator<Bench> for Benches {
    fn from_iter<I: IntoIterator<Item = Bench>>(benches: I) -> Benches {
        let mut set = Benches::EMPTY;
        set.extend(benches);
        set
    }
}

impl Extend<Bench> for Benches {
    fn extend<I: IntoIterator<Item = Bench>>(&mut self, benches: I) {
        for bench in benches {
            self.insert(bench);
        }
    }
}

impl IntoIterator for Benches {
    type Item = Bench;
    type IntoIter = BenchesIter;

    fn into_iter(self) -> BenchesIter {
        self.iter()
    }
}

/// The benches of a set, the lowest first.
///
/// ```
/// use yinqocha::Benches;
///
/// let benches = Benches::first(64).iter();
/// assert_eq!(benches.len(), 64);
/// assert_eq!(benches.collect::<Benches>(), Benches::first(64));
/// ```
#[derive(Clone, Debug)]
pub struct BenchesIter(u64);

impl Iterator for BenchesIter {
    type Item = Bench;

    fn next(&mut self) -> Option<Bench> {
        let lowest = Bench::new(u64::from(self.0.leading_zeros()))?;
        self.0 &= !lowest.bit();
        Some(lowest)
    }

    fn size_hint(&self) -> (usize, Option<usize>) {
        let left = Benches(self.0).len();
        (left, Some(left))
    }
}

impl ExactSizeIterator for BenchesIter {}

impl FusedIterator for BenchesIter {}

//! Sets of numbers below 64: benches, or rocks.

use std::ops::{BitAnd, BitOr, BitOrAssign, Sub};

/// Number n is the bit of weight 2^(63 − n), so that a set of benches is the sheet's own field.
#[derive(Clone, Copy, Debug, Default, PartialEq, Eq)]
pub struct Set(pub u64);

impl Set {
    pub const EMPTY: Set = Set(0);

    pub fn one(number: usize) -> Set {
        Set(1 << (63 - number))
    }

    /// The numbers below `count`, which is at most 64.
    pub fn first(count: usize) -> Set {
        Set(!u64::MAX.checked_shr(count as u32).unwrap_or(0))
    }

    pub fn is_empty(self) -> bool {
        self.0 == 0
    }

    pub fn len(self) -> usize {
        self.0.count_ones() as usize
    }

    pub fn has(self, number: usize) -> bool {
        !(self & Set::one(number)).is_empty()
    }

    pub fn lowest(self) -> Option<usize> {
        (!self.is_empty()).then(|| self.0.leading_zeros() as usize)
    }

    pub fn insert(&mut self, number: usize) {
        self.0 |= Set::one(number).0;
    }

    pub fn remove(&mut self, number: usize) {
        self.0 &= !Set::one(number).0;
    }

    pub fn put(&mut self, number: usize, inside: bool) {
        if inside {
            self.insert(number);
        } else {
            self.remove(number);
        }
    }
}

/// The numbers of a set, rising.
impl Iterator for Set {
    type Item = usize;

    fn next(&mut self) -> Option<usize> {
        let lowest = self.lowest()?;
        self.remove(lowest);
        Some(lowest)
    }
}

impl BitAnd for Set {
    type Output = Set;

    fn bitand(self, other: Set) -> Set {
        Set(self.0 & other.0)
    }
}

impl BitOr for Set {
    type Output = Set;

    fn bitor(self, other: Set) -> Set {
        Set(self.0 | other.0)
    }
}

impl BitOrAssign for Set {
    fn bitor_assign(&mut self, other: Set) {
        self.0 |= other.0;
    }
}

/// The numbers of the first set that the second lacks.
impl Sub for Set {
    type Output = Set;

    fn sub(self, other: Set) -> Set {
        Set(self.0 & !other.0)
    }
}

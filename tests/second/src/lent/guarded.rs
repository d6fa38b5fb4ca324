//! Buffers with guard bytes on both sides.

use crate::rng::Rng;

const GUARD: usize = 32;

/// A buffer inside a larger one. Before, inside and behind it stand random bytes, unless it was
/// made to hold something. Its first byte may have any alignment.
#[derive(Clone)]
pub struct Guarded {
    bytes: Vec<u8>,
    front: usize,
    len: usize,
}

impl Guarded {
    pub fn random(rng: &mut Rng, len: usize) -> Guarded {
        let front = GUARD + rng.below(8);
        Guarded { bytes: rng.bytes(front + len + GUARD), front, len }
    }

    pub fn holding(rng: &mut Rng, content: &[u8]) -> Guarded {
        let mut guarded = Guarded::random(rng, content.len());
        guarded.inside_mut().copy_from_slice(content);
        guarded
    }

    pub fn inside(&self) -> &[u8] {
        &self.bytes[self.front..self.front + self.len]
    }

    pub fn inside_mut(&mut self) -> &mut [u8] {
        &mut self.bytes[self.front..self.front + self.len]
    }

    /// Where two buffers of one origin first differ, guards included, counted from the first byte
    /// inside. Opaque to the compiler, which may believe that a lent buffer has not changed.
    pub fn first_difference(&self, other: &Guarded) -> Option<isize> {
        let (one, two) = std::hint::black_box((&self.bytes, &other.bytes));
        if one == two {
            return None;
        }
        let at = one.iter().zip(two).position(|(a, b)| a != b)?;
        Some(at as isize - self.front as isize)
    }
}

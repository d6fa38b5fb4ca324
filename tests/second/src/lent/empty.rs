//! Buffers of length 0, as they are handed to the functions of the C door.

/// What a buffer of length 0 has for its pointer.
#[derive(Clone, Copy, Debug, PartialEq, Eq)]
pub enum Empty {
    Null,
    Pointer,
}

impl Empty {
    /// The buffer, or nothing where its pointer is to be NULL.
    pub fn input(self, buffer: &[u8]) -> Option<&[u8]> {
        Some(buffer).filter(|buffer| !self.is_null(buffer))
    }

    /// The same of a buffer that is written.
    pub fn output(self, buffer: &mut [u8]) -> Option<&mut [u8]> {
        Some(buffer).filter(|buffer| !self.is_null(buffer))
    }

    fn is_null(self, buffer: &[u8]) -> bool {
        buffer.is_empty() && self == Empty::Null
    }
}

#[cfg(test)]
mod tests {
    use super::*;

    #[test]
    fn only_an_empty_buffer_may_be_null() {
        assert_eq!((Empty::Null.input(&[]), Empty::Pointer.input(&[])), (None, Some(&[][..])));
        assert_eq!((Empty::Null.output(&mut []), Empty::Null.input(&[7])), (None, Some(&[7][..])));
        assert_eq!(Empty::Pointer.output(&mut []), Some(&mut [][..]));
    }
}

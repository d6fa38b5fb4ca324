//! Sheets with what planning left, as a text: tests/plans/light.txt. Each sheet has these lines, the
//! tables on as many as they need:
//!
//! ```text
//! sheet: its name
//! bytes: 7181, checksum 0123456789abcdef
//! word: 1
//! answer: 480 12 3 -8
//! loads: 470 480 0 -8
//! places: 0 1 1 -8
//! ```
//!
//! Every entry that was lent stands there in its order, -N for N entries that kept their contents.
//! Lines that start with # and empty lines say nothing.
//!
//! - `text`: prints and reads such a text.
//! - `differences`: what differs between two lists of sheets.

pub mod differences;
pub mod text;

use crate::checksum;
use crate::outcome::Outcome;

/// A sheet by its name, length and checksum, and what planning it left.
#[derive(Clone, Debug, Default, PartialEq, Eq)]
pub struct Stored {
    pub name: String,
    pub bytes: usize,
    pub checksum: u64,
    pub outcome: Outcome,
}

impl Stored {
    pub fn new(name: &str, sheet: &[u8], outcome: Outcome) -> Stored {
        let checksum = checksum::of(sheet);
        Stored { name: name.to_string(), bytes: sheet.len(), checksum, outcome }
    }
}

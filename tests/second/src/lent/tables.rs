//! The tables of places, of loads and of an answer, for a sheet of any size.

use crate::codec::door::{entry, numbers, ENTRY_BYTES};
use crate::codec::sheet::{MAX_BENCHES, MAX_JOBS};
use std::array;

/// What every byte has before a call. Eight of them are no bench, no load and no number of moves.
const FILL: u8 = 0xA5;
/// Entries behind those that the largest sheet needs. No call may change them.
const SPARE: usize = 8;

/// An entry, or none where it has kept what was in it before the call.
pub type Entry = Option<u64>;

/// Tables with so many entries of the answer, and some more behind each.
pub struct Tables<const ENTRIES: usize>([Vec<u8>; 3]);

impl<const ENTRIES: usize> Tables<ENTRIES> {
    pub fn new() -> Tables<ENTRIES> {
        let filled = |entries| vec![FILL; ENTRY_BYTES * (entries + SPARE)];
        Tables([MAX_JOBS, MAX_BENCHES as usize, ENTRIES].map(filled))
    }

    pub fn all(&mut self) -> [&mut [u8]; 3] {
        self.0.each_mut().map(Vec::as_mut_slice)
    }

    /// The entries of the answer.
    pub fn answer(&self) -> [u64; ENTRIES] {
        array::from_fn(|index| entry(&self.0[2], index))
    }

    /// Every entry of each table.
    pub fn entries(&self) -> [Vec<Entry>; 3] {
        let kept = u64::from_le_bytes([FILL; ENTRY_BYTES]);
        let entry = |value| (value != kept).then_some(value);
        self.0.each_ref().map(|table| numbers(table).map(entry).collect())
    }
}

impl<const ENTRIES: usize> Default for Tables<ENTRIES> {
    fn default() -> Tables<ENTRIES> {
        Tables::new()
    }
}

#[cfg(test)]
mod tests {
    use super::*;

    #[test]
    fn an_entry_counts_once_a_byte_of_it_has_changed() {
        let mut tables = Tables::<3>::new();
        let [places, _, answer] = tables.all();
        places[8 * 511 + 7] = 0;
        answer[8..16].copy_from_slice(&7_u64.to_le_bytes());
        answer[8 * 4] ^= 1;
        let [places, loads, answer] = tables.entries();
        assert_eq!((places.len(), loads.len(), answer.len()), (520, 72, 11));
        let written = |table: &[Entry]| -> Vec<usize> {
            (0..table.len()).filter(|&index| table[index].is_some()).collect()
        };
        assert_eq!(
            [places, loads, answer.clone()].map(|table| written(&table)),
            [vec![511], vec![], vec![1, 4]]
        );
        assert_eq!((answer[1], tables.answer()[1]), (Some(7), 7));
    }
}

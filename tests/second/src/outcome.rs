//! What planning left: the result word, and every entry of the three tables.

use crate::checksum::Checksum;
use crate::codec::door::fault_number;
use crate::lent::tables::{Entry, Tables};
use crate::planner::door::{ANSWER_ENTRIES, LONG, NONE, PLAN};

/// The tables in their order.
pub const TABLES: [&str; 3] = ["places", "loads", "answer"];

#[derive(Clone, Debug, Default, PartialEq, Eq)]
pub struct Outcome {
    pub word: u64,
    pub tables: [Vec<Entry>; 3],
}

impl Outcome {
    /// Of tables that were new before the call.
    pub fn new(word: u64, tables: &Tables<ANSWER_ENTRIES>) -> Outcome {
        Outcome { word, tables: tables.entries() }
    }

    /// The kind of the answer, with its moves; or the number of the fault.
    pub fn answer(&self) -> String {
        let moves = self.tables[2].get(1).copied().flatten().unwrap_or(0);
        match (fault_number(self.word), self.word) {
            (0, PLAN) => format!("plan {moves:>5}"),
            (0, NONE) => format!("none {moves:>5}"),
            (0, LONG) => "long".to_string(),
            (0, value) => format!("value {value}"),
            (number, _) => format!("fault {number}"),
        }
    }

    /// How many entries of the answer table were written: two or three, by the library's age.
    pub fn answer_entries(&self) -> usize {
        self.tables[2].iter().filter(|entry| entry.is_some()).count()
    }

    /// Of the word and of every entry.
    pub fn checksum(&self) -> u64 {
        let mut checksum = Checksum::new();
        checksum.add(&self.word.to_le_bytes());
        for entry in self.tables.iter().flatten() {
            checksum.add(&[u8::from(entry.is_some())]);
            checksum.add(&entry.unwrap_or(0).to_le_bytes());
        }
        checksum.get()
    }
}

#[cfg(test)]
mod tests {
    use super::*;
    use crate::codec::door::word;
    use crate::codec::fault::Fault;

    fn outcome(word: u64, answer: &[Entry]) -> Outcome {
        Outcome { word, tables: [vec![Some(3), None], vec![Some(9)], answer.to_vec()] }
    }

    #[test]
    fn answers_have_their_moves() {
        let entries = [Some(9), Some(12), Some(0), None];
        assert_eq!(outcome(PLAN, &entries).answer(), "plan    12");
        assert_eq!(outcome(NONE, &entries).answer(), "none    12");
        assert_eq!(outcome(LONG, &entries).answer(), "long");
        assert_eq!(outcome(word(Err(Fault::new(13, 0))), &[None; 4]).answer(), "fault 13");
        assert_eq!(outcome(PLAN, &entries).answer_entries(), 3);
        assert_eq!(outcome(PLAN, &[Some(9), Some(12), None, None]).answer_entries(), 2);
    }

    #[test]
    fn a_checksum_changes_with_the_word_and_with_every_entry() {
        let plain = outcome(PLAN, &[Some(9), Some(12), Some(0), None]);
        let mut others = vec![Outcome { word: NONE, ..plain.clone() }];
        for (table, entries) in plain.tables.iter().enumerate() {
            for index in 0..entries.len() {
                for entry in [None, Some(0), Some(1)] {
                    let mut other = plain.clone();
                    other.tables[table][index] = entry;
                    others.push(other);
                }
            }
        }
        for other in others {
            assert_eq!(other.checksum() == plain.checksum(), other == plain, "{other:?}");
        }
    }
}

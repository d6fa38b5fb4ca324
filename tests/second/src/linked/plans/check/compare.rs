//! Two lists of places compared by the second planner, by the library where it is linked, and
//! before the judge.

use super::{two_words, Check};
use crate::compare_kinds::{self, kinds, name};
use crate::library;
use second::codec::door::{fault_number, numbers, ENTRY_BYTES};
use second::codec::fault::{Fault, MINUTES};
use second::hex;
use second::judge::comparison::{judge_comparison, judge_exchanged, Said};
use second::lent::empty::Empty;
use second::lent::guarded::Guarded;
use second::planner::algorithm::Comparison;
use second::planner::door::{self, SAME};

/// Two lists of places, as tables of bytes.
pub type Lists<'a> = [&'a [u8]; 2];

/// What a result word says.
fn said(word: u64) -> Said {
    match (fault_number(word), word) {
        (0, SAME) => Ok(Comparison::Same),
        (0, _) => Ok(Comparison::Different),
        (number, _) => Err(Fault::new(number, word as u32 as usize)),
    }
}

impl Check {
    /// Compares two lists, as they stand and exchanged.
    pub fn compare(&mut self, sheet: &[u8], [first, second]: Lists) -> u64 {
        let word = self.compare_in_order(sheet, [first, second]);
        let exchanged = self.compare_in_order(sheet, [second, first]);
        let judged = judge_exchanged(said(word), said(exchanged));
        self.expect_judged(judged, sheet, [first, second]);
        word
    }

    /// Compares two lists of which it is known what the word must be.
    pub fn expect_comparison(&mut self, sheet: &[u8], lists: Lists, expected: u64) {
        let word = self.compare(sheet, lists);
        if word != expected {
            self.fail_lists(&format!("the word {expected:#x} is expected"), sheet, lists);
        }
    }

    fn compare_in_order(&mut self, sheet: &[u8], lists: Lists) -> u64 {
        let word = door::compare(&mut self.planner, sheet, lists[0], lists[1]);
        self.set_library_against_word(sheet, lists, word);
        self.expect("no sheet meets fault 10", fault_number(word) != MINUTES, sheet);
        let places: [Vec<u64>; 2] = lists.map(|list| numbers(list).collect());
        let places = places.each_ref().map(Vec::as_slice);
        let read = self.codec.read(sheet);
        let judged = judge_comparison(read, places, said(word));
        let kinds = match read {
            _ if judged.is_err() => Vec::new(),
            Err(fault) => vec![name(&format!("fault {}", fault.number))],
            Ok(sheet) => {
                let is_begun = lists.map(|list| !list.len().is_multiple_of(ENTRY_BYTES));
                kinds(&compare_kinds::Lists { sheet, places, is_begun }, said(word))
            }
        };
        self.expect_judged(judged, sheet, lists);
        self.tally.count_comparison(self.class, &kinds);
        word
    }

    /// Equal lists are lent in one buffer or in two.
    fn set_library_against_word(&mut self, sheet: &[u8], lists: Lists, word: u64) {
        let inputs = [sheet, lists[0], lists[1]].map(|of| Guarded::holding(&mut self.rng, of));
        let lent = inputs.clone();
        let empty = self.rng.pick(&[Empty::Null, Empty::Pointer]);
        let is_one = lists[0] == lists[1] && self.rng.one_in(2);
        if is_one && word == SAME {
            self.tally.meet(&name("same, one buffer for both lists"));
        }
        let [lent_sheet, first, second] = lent.each_ref().map(Guarded::inside);
        let lent_lists = [first, if is_one { first } else { second }];
        let Some(library) = library::compare(lent_sheet, lent_lists, empty) else { return };
        if library != word {
            self.fail_lists(&two_words(library, word), sheet, lists);
        }
        for (lent, input) in lent.iter().zip(&inputs) {
            self.same_bytes("a buffer lent to the library", lent, input, sheet);
        }
    }

    fn expect_judged(&self, judged: Result<(), &str>, sheet: &[u8], lists: Lists) {
        if let Err(what) = judged {
            self.fail_lists(&format!("the judge refuses the comparison: {what}"), sheet, lists);
        }
    }

    fn fail_lists(&self, report: &str, sheet: &[u8], lists: Lists) -> ! {
        let [first, second] = lists.map(hex::print);
        self.fail(&format!("{report}\nfirst list {first}\nsecond list {second}"), sheet)
    }
}

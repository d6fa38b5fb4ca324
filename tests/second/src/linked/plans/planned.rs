//! What planning or the search for the best target gave, read back from the result word and the
//! tables.

use second::codec::door::{entry, fault_number};
use second::codec::fault::Fault;
use second::codec::sheet::Sheet;
use second::lent::guarded::Guarded;
use second::planner::algorithm::Answer;
use second::planner::best::Best;
use second::planner::door::{ANSWER_ENTRIES, BEST_ENTRIES, LONG, PLAN};
use second::planner::set::Set;

/// The result word, and the entries of the three tables, so many of the answer.
pub struct Filled<const ENTRIES: usize> {
    pub word: u64,
    pub places: Vec<u64>,
    pub loads: Vec<u64>,
    answer: [u64; ENTRIES],
}

pub type Planned = Filled<ANSWER_ENTRIES>;
pub type Searched = Filled<BEST_ENTRIES>;

impl<const ENTRIES: usize> Filled<ENTRIES> {
    /// Of a sheet that was read, if it was, and the tables of places, of loads and of the answer.
    pub fn new(sheet: Option<&Sheet>, word: u64, tables: &[Guarded; 3]) -> Filled<ENTRIES> {
        let (jobs, benches) = match sheet {
            Some(sheet) if fault_number(word) == 0 => (sheet.jobs().len(), sheet.head().benches),
            _ => (0, 0),
        };
        let [places, loads, answer] = tables.each_ref().map(Guarded::inside);
        Filled {
            word,
            places: (0..jobs).map(|job| entry(places, job)).collect(),
            loads: (0..benches as usize).map(|bench| entry(loads, bench)).collect(),
            answer: std::array::from_fn(|index| entry(answer, index)),
        }
    }
}

impl Searched {
    pub fn best(&self) -> Result<Best<'_>, Fault> {
        let [target, largest, moves, fullest, runs] = self.answer;
        match fault_number(self.word) {
            0 => {
                let (fullest, places, loads) = (fullest as usize, &self.places, &self.loads);
                Ok(Best { target, runs, largest, moves, fullest, places, loads })
            }
            number => Err(Fault::new(number, self.word as u32 as usize)),
        }
    }
}

impl Planned {
    pub fn answer(&self) -> Result<Answer<'_>, Fault> {
        let [first, second, third] = self.answer;
        match (fault_number(self.word), self.word) {
            (0, PLAN) => {
                let (fullest, places, loads) = (third as usize, &self.places, &self.loads);
                Ok(Answer::Plan { largest: first, moves: second, fullest, places, loads })
            }
            (0, LONG) => Ok(Answer::Long { job: first as usize }),
            (0, _) => Ok(Answer::None { benches: Set(first), moves: second }),
            (number, word) => Err(Fault::new(number, word as u32 as usize)),
        }
    }

    pub fn moves(&self) -> u64 {
        match self.answer() {
            Ok(Answer::Plan { moves, .. } | Answer::None { moves, .. }) => moves,
            _ => 0,
        }
    }

    /// The fullest bench of a plan.
    pub fn fullest(&self) -> Option<usize> {
        match self.answer() {
            Ok(Answer::Plan { fullest, .. }) => Some(fullest),
            _ => None,
        }
    }
}

/// A result word in words.
pub fn words(word: u64) -> String {
    match fault_number(word) {
        0 => format!("answer {word}"),
        number => format!("fault {number}, place {}", word as u32),
    }
}

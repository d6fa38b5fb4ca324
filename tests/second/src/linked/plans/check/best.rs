//! The best target of one sheet by the second planner, by the library where it is linked, and
//! before the judge. Tables are compared byte by byte.

use super::{Check, Rival, TableBytes, STEPS};
use crate::best_kinds::kinds;
use crate::best_library;
use crate::planned::Searched;
use second::codec::door::fault_number;
use second::codec::fault::MINUTES;
use second::gen::day::Day;
use second::judge::best::{judge_against, judge_best, least_largest_load};
use second::lent::guarded::Guarded;
use second::planner::best::Best;
use second::planner::door::{self, BEST_ENTRIES};

impl Check {
    pub fn best_of_day(&mut self, day: &Day, rival: Rival) -> Searched {
        self.best(&day.draft().bytes(), rival)
    }

    /// Finds the best target of a sheet, with tables that have room for it, exactly or more.
    pub fn best(&mut self, sheet: &[u8], rival: Rival) -> Searched {
        let rooms = self.room_for(sheet, BEST_ENTRIES);
        self.best_into(sheet, rooms, rival)
    }

    /// Finds the best target of a sheet, with tables of so many bytes.
    pub fn best_into(&mut self, sheet: &[u8], rooms: TableBytes, rival: Rival) -> Searched {
        let mut expected = rooms.map(|room| Guarded::random(&mut self.rng, room));
        let before = expected.clone();
        let [places, loads, answer] = expected.each_mut().map(Guarded::inside_mut);
        let word = door::best(&mut self.planner, sheet, places, loads, answer);
        self.set_library_against(best_library::best, sheet, word, before, &expected);
        self.expect("no sheet meets fault 10", fault_number(word) != MINUTES, sheet);
        let searched = Searched::new(self.codec.read(sheet).ok(), word, &expected);
        if let Ok(best) = searched.best() {
            self.judge_best(sheet, &best, rival);
        }
        self.tally.count_search(self.class, searched.best());
        searched
    }

    /// Where an assignment within the sheet's own T is known, the best possible largest load is at
    /// most that.
    fn judge_best(&mut self, sheet: &[u8], best: &Best, rival: Rival) {
        let read = self.codec.read(sheet).expect("an answer is for an accepted sheet");
        let load = match rival {
            Rival::Unknown => None,
            Rival::Planted => Some(read.head().target),
            Rival::Searched => least_largest_load(read, STEPS),
        };
        let judged = judge_best(&mut self.planner, read, best)
            .and_then(|()| load.map_or(Ok(()), |load| judge_against(read, best, load)));
        let kinds = kinds(&mut self.planner, read, best);
        if let Err(what) = judged {
            self.fail(&format!("the judge refuses {best:?}: {what}"), sheet);
        }
        if let (Rival::Searched, Some(load)) = (rival, load) {
            let lower = if best.target < load { "below" } else { "at" };
            self.tally.meet(&format!("best: {lower} the best possible largest load"));
        }
        for kind in kinds {
            self.tally.meet(&kind);
        }
    }
}

//! What the tally counts of a comparison.

use crate::kinds::that_hold;
use second::codec::sheet::{Sheet, MAX_JOBS};
use second::judge::comparison::Said;
use second::planner::algorithm::Comparison;

/// The kinds that are wanted on each sort of sheets.
const ON_EACH_SORT: [&str; 12] = [
    "same",
    "different with other loads",
    "different with equal loads",
    "two jobs of equal minutes exchanged",
    "only a job of 0 minutes elsewhere",
    "only the first job elsewhere",
    "only the last job elsewhere",
    "only a job between them elsewhere",
    "half of the jobs elsewhere",
    "every job elsewhere",
    "a bench not allowed, place 0",
    "a bench not allowed, place 1",
];

const SORTS: [&str; 6] = [
    "",
    ", with bookings",
    ", with check-only jobs",
    ", full sheet",
    ", full sheet with bookings",
    ", full sheet with check-only jobs",
];

/// The kinds of fault 13 that are wanted with each place.
const WITH_EACH_PLACE: [&str; 11] = [
    "fault 13",
    "a bench that the head lacks",
    "no bench at all",
    "too few places",
    "too many places",
    "513 places or more",
    "2000 places or more",
    "a bench not allowed at job 0 of 512",
    "a bench not allowed at job 511",
    "a bench not allowed, else the same",
    "a bench not allowed behind a job elsewhere",
];

const OTHERS: [&str; 14] = [
    "same, no job",
    "same, a begun entry",
    "same, one buffer for both lists",
    "different, a begun entry",
    "fault 13, a begun entry",
    "only job 511 elsewhere",
    "only job 511 elsewhere, 0 minutes",
    "equal loads, three jobs or more elsewhere",
    "a bench not allowed, the same list twice",
    "fault 13, the second at a lower job",
    "fault 13, the second of another length",
    "two plans, same",
    "two plans, different",
    "other minutes, bookings and target",
];

/// The faults of a sheet.
const FAULTS: [u32; 13] = [1, 2, 3, 4, 5, 6, 7, 8, 9, 11, 12, 14, 15];

/// The name of a kind in the tally.
pub fn name(kind: &str) -> String {
    format!("comparison: {kind}")
}

/// Every kind that is wanted.
pub fn wanted() -> Vec<String> {
    let of_sorts = |kind| SORTS.map(|sort| format!("{kind}{sort}"));
    let of_places = |kind| [0, 1].map(|place| format!("{kind}, place {place}"));
    let others = OTHERS.map(str::to_string);
    let faults = FAULTS.map(|number| format!("fault {number}"));
    let kinds = ON_EACH_SORT.iter().flat_map(of_sorts);
    let kinds = kinds.chain(WITH_EACH_PLACE.iter().flat_map(of_places));
    kinds.chain(others).chain(faults).map(|kind| name(&kind)).collect()
}

/// Two lists of places of a sheet that was read.
pub struct Lists<'a> {
    pub sheet: &'a Sheet,
    pub places: [&'a [u64]; 2],
    /// Whether each ends inside an entry.
    pub is_begun: [bool; 2],
}

/// The kinds of what was said of two lists.
pub fn kinds(lists: &Lists, said: Said) -> Vec<String> {
    let kinds = match said {
        Ok(Comparison::Same) => lists.same(),
        Ok(Comparison::Different) => lists.different(),
        Err(fault) => lists.with_fault(fault.place),
    };
    let sorts = sorts(lists.sheet);
    let of_sorts = |kind: String| match ON_EACH_SORT.contains(&&kind[..]) {
        true => sorts.iter().map(|sort| format!("{kind}{sort}")).collect(),
        false => vec![kind],
    };
    kinds.into_iter().flat_map(of_sorts).map(|kind| name(&kind)).collect()
}

/// The sorts that a sheet is of.
fn sorts(sheet: &Sheet) -> Vec<&'static str> {
    let booked = sheet.booked().iter().any(|&minutes| minutes > 0);
    let check_only = sheet.jobs().iter().any(|job| job.minutes == 0);
    let full = sheet.jobs().len() == MAX_JOBS && sheet.head().benches == 64;
    let hold = [true, booked, check_only, full, full && booked, full && check_only];
    SORTS.into_iter().zip(hold).filter(|&(_, holds)| holds).map(|(sort, _)| sort).collect()
}

fn strings(kinds: Vec<&str>) -> Vec<String> {
    kinds.into_iter().map(str::to_string).collect()
}

impl Lists<'_> {
    fn same(&self) -> Vec<String> {
        strings(that_hold([
            (true, "same"),
            (self.places[0].is_empty(), "same, no job"),
            (self.is_begun.contains(&true), "same, a begun entry"),
        ]))
    }

    fn different(&self) -> Vec<String> {
        let (jobs, elsewhere) = (self.sheet.jobs(), self.elsewhere(self.sheet.jobs().len()));
        let (last, equal) = (jobs.len() - 1, self.has_equal_loads(&elsewhere));
        let only = match elsewhere[..] {
            [job] if last > 0 => Some(job),
            _ => None,
        };
        let check_only = only.is_some_and(|job| jobs[job].minutes == 0);
        strings(that_hold([
            (!equal, "different with other loads"),
            (equal, "different with equal loads"),
            (equal && self.are_alike(&elsewhere), "two jobs of equal minutes exchanged"),
            (check_only, "only a job of 0 minutes elsewhere"),
            (only == Some(0), "only the first job elsewhere"),
            (only == Some(last), "only the last job elsewhere"),
            (only.is_some_and(|job| job > 0 && job < last), "only a job between them elsewhere"),
            (last > 1 && elsewhere.len() == jobs.len() / 2, "half of the jobs elsewhere"),
            (elsewhere.len() == jobs.len(), "every job elsewhere"),
            (self.is_begun.contains(&true), "different, a begun entry"),
            (only == Some(511), "only job 511 elsewhere"),
            (only == Some(511) && check_only, "only job 511 elsewhere, 0 minutes"),
            (equal && elsewhere.len() > 2, "equal loads, three jobs or more elsewhere"),
        ]))
    }

    /// The jobs below `end` that are on other benches in the second list.
    fn elsewhere(&self, end: usize) -> Vec<usize> {
        let [first, second] = self.places;
        (0..end).filter(|&job| first[job] != second[job]).collect()
    }

    /// Two jobs of equal minutes above 0.
    fn are_alike(&self, elsewhere: &[usize]) -> bool {
        let minutes = |job: usize| self.sheet.jobs()[job].minutes;
        matches!(*elsewhere, [one, two] if minutes(one) > 0 && minutes(one) == minutes(two))
    }

    /// Each bench gets as many minutes as it loses.
    fn has_equal_loads(&self, elsewhere: &[usize]) -> bool {
        let mut more = [0; 64];
        for &job in elsewhere {
            let [from, to] = [0, 1].map(|list| self.places[list][job] as usize);
            let minutes = self.sheet.jobs()[job].minutes as i64;
            more[from] -= minutes;
            more[to] += minutes;
        }
        more == [0; 64]
    }

    /// The lowest job that a list of the right length puts on a bench that it does not allow.
    fn wrong_job(&self, list: usize) -> Option<usize> {
        let (jobs, places) = (self.sheet.jobs(), self.places[list]);
        let is_wrong = |job: usize| places[job] >= 64 || !jobs[job].allows(places[job]);
        (0..jobs.len()).filter(|_| places.len() == jobs.len()).find(|&job| is_wrong(job))
    }

    /// Of fault 13 with this place, that of the list.
    fn with_fault(&self, place: usize) -> Vec<String> {
        let (jobs, benches) = (self.sheet.jobs().len(), self.sheet.head().benches);
        let [list, other] = [place, 1 - place].map(|list| self.places[list]);
        let wrong = self.wrong_job(place);
        let bench = wrong.map(|job| list[job]);
        let not_allowed = wrong.filter(|&job| list[job] < benches && other.len() == jobs);
        let no_other = self.wrong_job(1 - place).is_none();
        let kinds = that_hold([
            (true, "fault 13"),
            (bench.is_some_and(|bench| bench < benches), "a bench not allowed"),
            (
                bench.is_some_and(|bench| (benches..64).contains(&bench)),
                "a bench that the head lacks",
            ),
            (bench.is_some_and(|bench| bench >= 64), "no bench at all"),
            (list.len() < jobs, "too few places"),
            (list.len() > jobs, "too many places"),
            (list.len() > MAX_JOBS, "513 places or more"),
            (list.len() >= 2000, "2000 places or more"),
            (not_allowed == Some(0) && jobs == 512, "a bench not allowed at job 0 of 512"),
            (not_allowed == Some(511), "a bench not allowed at job 511"),
            (
                not_allowed.is_some_and(|job| no_other && self.elsewhere(jobs) == [job]),
                "a bench not allowed, else the same",
            ),
            (
                not_allowed.is_some_and(|job| !self.elsewhere(job).is_empty()),
                "a bench not allowed behind a job elsewhere",
            ),
        ]);
        let kinds = kinds.into_iter().map(|kind| format!("{kind}, place {place}"));
        kinds.chain(self.with_fault_of_either(place)).collect()
    }

    /// Of fault 13 whichever its place is.
    fn with_fault_of_either(&self, place: usize) -> Vec<String> {
        let [first, second] = [0, 1].map(|list| self.wrong_job(list));
        let not_allowed = first.is_some_and(|job| self.places[0][job] < self.sheet.head().benches);
        let other_length = self.places[1].len() != self.sheet.jobs().len();
        let lower = matches!((first, second), (Some(first), Some(second)) if second < first);
        strings(that_hold([
            (self.is_begun[place], "fault 13, a begun entry"),
            (
                not_allowed && self.places[0] == self.places[1],
                "a bench not allowed, the same list twice",
            ),
            (lower, "fault 13, the second at a lower job"),
            (first.is_some() && other_length, "fault 13, the second of another length"),
        ]))
    }
}

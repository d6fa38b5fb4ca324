//! Algorithm 2, from the bytes of a sheet to the answer, and the comparison of two plans.

use super::bay::Bay;
use super::explore::{Exploration, Explored};
use super::orientation::Settled;
use super::push::first_move;
use super::set::Set;
use crate::codec::door::Codec;
use crate::codec::fault::{Fault, NO_ROOM};
use crate::codec::sheet::{Sheet, MAX_JOBS};

/// "The three answers"; "every answer with a largest load carries" the fullest bench. A plan's
/// tables are lent by the planner.
#[derive(Clone, Copy, Debug, PartialEq, Eq)]
pub enum Answer<'a> {
    Plan { largest: u64, moves: u64, fullest: usize, places: &'a [u64], loads: &'a [u64] },
    Long { job: usize },
    None { benches: Set, moves: u64 },
}

/// The number of entries that each table has room for.
#[derive(Clone, Copy, Debug, PartialEq, Eq)]
pub struct Rooms {
    pub places: usize,
    pub loads: usize,
}

impl Rooms {
    /// Room for every sheet.
    pub const FULL: Rooms = Rooms { places: MAX_JOBS, loads: 64 };
}

#[derive(Clone, Copy, Debug, PartialEq, Eq)]
pub enum Comparison {
    Same,
    Different,
}

/// What a run did, for the tests.
#[derive(Clone, Copy, Debug, Default, PartialEq, Eq)]
pub struct Counts {
    pub explored: Explored,
    pub settled: Settled,
    /// Rocks that became dedicated load.
    pub peeled: u64,
    /// "benches × light jobs that have a choice", the most moves there can be.
    pub budget: u64,
}

/// The places and loads of the last plan.
pub(super) struct Tables {
    places: [u64; MAX_JOBS],
    loads: [u64; 64],
}

impl Tables {
    /// The places of a sheet's jobs and the loads of its benches.
    pub(super) fn of(&self, sheet: &Sheet) -> (&[u64], &[u64]) {
        (&self.places[..sheet.jobs().len()], &self.loads[..sheet.head().benches as usize])
    }
}

/// The planner with places to work in, so that a call takes nothing from the heap.
pub struct Planner {
    pub(super) codec: Codec,
    pub(super) tables: Tables,
    pub(super) counts: Counts,
}

impl Planner {
    pub fn new() -> Planner {
        let tables = Tables { places: [0; MAX_JOBS], loads: [0; 64] };
        Planner { codec: Codec::default(), tables, counts: Counts::default() }
    }

    /// What the last run did; nothing after a fault.
    pub fn counts(&self) -> &Counts {
        &self.counts
    }

    pub fn plan(&mut self, bytes: &[u8], rooms: Rooms) -> Result<Answer<'_>, Fault> {
        self.counts = Counts::default();
        let sheet = read(&mut self.codec, bytes, rooms)?;
        Ok(answer(sheet, &mut self.tables, &mut self.counts))
    }

    /// Plans a sheet that was read, with another target.
    pub fn plan_at(&mut self, sheet: &Sheet, target: u64) -> Answer<'_> {
        answer(&sheet.with_target(target), &mut self.tables, &mut self.counts)
    }

    /// "From now on plans are the same when every job is on the same bench."
    pub fn compare(
        &mut self,
        bytes: &[u8],
        first: &[u64],
        second: &[u64],
    ) -> Result<Comparison, Fault> {
        let sheet = self.codec.read(bytes)?;
        // "a list that does not give each job one allowed bench is fault 13, place 0 for the first
        // list and 1 for the second, the first judged first".
        for (place, list) in [first, second].into_iter().enumerate() {
            if !is_assignment(sheet, list) {
                return Err(Fault::new(NO_ROOM, place));
            }
        }
        // Each list has one entry for each job.
        Ok(if first == second { Comparison::Same } else { Comparison::Different })
    }
}

impl Default for Planner {
    fn default() -> Planner {
        Planner::new()
    }
}

/// Reads a sheet for which the tables have room.
pub(super) fn read<'a>(
    codec: &'a mut Codec,
    bytes: &[u8],
    rooms: Rooms,
) -> Result<&'a Sheet, Fault> {
    let sheet = codec.read(bytes)?;
    // "The table of places is shorter than the jobs, or the table of loads shorter than the benches
    // (place 0)."
    if rooms.places < sheet.jobs().len() || rooms.loads < sheet.head().benches as usize {
        return Err(Fault::new(NO_ROOM, 0));
    }
    Ok(sheet)
}

/// The answer to a sheet. Only a plan is put in the tables.
pub(super) fn answer<'a>(sheet: &Sheet, tables: &'a mut Tables, counts: &mut Counts) -> Answer<'a> {
    *counts = Counts::default();
    // "Long: the lowest job with more than T minutes. Tried before the run."
    let target = sheet.head().target;
    if let Some(job) = sheet.jobs().iter().position(|job| job.minutes > target) {
        return Answer::Long { job };
    }
    match run(sheet, &mut tables.places, counts) {
        Err((benches, moves)) => Answer::None { benches, moves },
        Ok(moves) => {
            add_loads(sheet, &tables.places, &mut tables.loads);
            let (places, loads) = tables.of(sheet);
            let (fullest, largest) = fullest(loads);
            Answer::Plan { largest, moves, fullest, places, loads }
        }
    }
}

/// "An assignment gives each job of the sheet one of its allowed benches." A list with fewer or
/// more entries than there are jobs does not.
pub fn is_assignment(sheet: &Sheet, places: &[u64]) -> bool {
    let jobs = sheet.jobs();
    let allowed = |(job, &place): (usize, &u64)| place < 64 && jobs[job].allows(place);
    places.len() == jobs.len() && places.iter().enumerate().all(allowed)
}

/// "A bench's load under it is the sum of the minutes of the jobs put there." Booked minutes "count
/// in loads".
fn add_loads(sheet: &Sheet, places: &[u64], loads: &mut [u64; 64]) {
    *loads = *sheet.booked();
    for (job, &place) in sheet.jobs().iter().zip(places) {
        loads[place as usize] += job.minutes;
    }
}

/// "the fullest bench, the lowest on a tie", and its load, the largest.
pub(super) fn fullest(loads: &[u64]) -> (usize, u64) {
    let mut fullest = (0, 0);
    for (bench, &load) in loads.iter().enumerate() {
        if load > fullest.1 {
            fullest = (bench, load);
        }
    }
    fullest
}

/// Algorithm 2 on a sheet with no job longer than T: the moves made, with the places of all jobs;
/// or a blocking set and the moves made.
fn run(sheet: &Sheet, places: &mut [u64], counts: &mut Counts) -> Result<u64, (Set, u64)> {
    let mut bay = Bay::of(sheet).map_err(|crowded| (crowded, 0))?;
    counts.peeled = bay.rocks.given().count() as u64;
    counts.budget = (bay.benches * bay.pebbles().len()) as u64;
    let mut moves = 0;
    loop {
        let mut exploration = Exploration::explore(&bay);
        counts.explored.add(&exploration.counts);
        if exploration.activated.is_empty() {
            exploration.orientation.settle(&mut counts.settled);
            put_places(sheet, &exploration, places);
            return Ok(moves);
        }
        // "With an overloaded bench and no move left, the answer is None with the activated
        // benches."
        let Some(push) = first_move(&exploration) else {
            return Err((exploration.activated, moves));
        };
        bay.shift(push.pebble, push.to);
        moves += 1;
        assert!(moves <= counts.budget, "more moves than there can be");
    }
}

/// The bench of each job, once every rock is directed.
fn put_places(sheet: &Sheet, exploration: &Exploration, places: &mut [u64]) {
    let bay = exploration.orientation.bay;
    for (job, place) in sheet.jobs().iter().zip(&mut *places) {
        *place = u64::from(job.allowed.leading_zeros());
    }
    for pebble in bay.pebbles() {
        places[pebble.job] = pebble.place as u64;
    }
    for (rock, bench) in exploration.orientation.directed().chain(bay.rocks.given()) {
        places[rock.job] = bench as u64;
    }
}

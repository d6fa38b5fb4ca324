//! Days whose heavy jobs have placements of all sorts, and sets of benches that weigh about k × T.

use super::days::{self, Size};
use super::heavy::{Shape, SHAPES};
use super::light::{Choice, CHOICES};
use super::weights;
use crate::codec::door::Codec;
use crate::codec::sheet::{Job, MAX_JOBS};
use crate::gen::day::{bench_bit, Day, MOST_MINUTES};
use crate::planner::bay::is_heavy;
use crate::planner::least::least_weight;
use crate::planner::set::Set;
use crate::rng::Rng;

/// A size with few enough benches to try every set.
pub fn small(rng: &mut Rng) -> Size {
    let benches = rng.range(1, 6);
    let jobs = benches as usize + rng.below(8);
    let target = if rng.one_in(4) { rng.range(1, 200) } else { rng.range(1, 24) };
    Size { benches, jobs, target }
}

/// A day with heavy jobs of any shape.
pub fn any(rng: &mut Rng, size: Size) -> Day {
    let shape = (!rng.one_in(10)).then(|| rng.pick(&SHAPES));
    let choice = rng.pick(&CHOICES);
    with(rng, size, shape, choice)
}

/// A day with heavy jobs of this shape, of which some may be missing, and on half of the days with
/// a few heavy jobs that have one bench, on some with many.
pub fn with(rng: &mut Rng, size: Size, shape: Option<Shape>, choice: Choice) -> Day {
    let mut day = days::booked_with(rng, size, shape, choice);
    if !rng.one_in(4) {
        make_light(rng, &mut day, |job, _| job.allowed.count_ones() == 1);
    }
    if rng.one_in(3) {
        let often = rng.pick(&[2, 4, 16]);
        make_light(rng, &mut day, |_, rng| rng.one_in(often));
    }
    if rng.one_in(2) {
        for _ in 0..rng.pick(&[1, 1, 2, 4]) {
            add_with_one_bench(rng, &mut day);
        }
    }
    day
}

/// Makes some heavy jobs light, but not one that is the longest, so that fault 12 refuses none.
fn make_light(rng: &mut Rng, day: &mut Day, is_chosen: impl Fn(&Job, &mut Rng) -> bool) {
    let Day { head, jobs, .. } = day;
    let longest = (0..jobs.len()).max_by_key(|&job| jobs[job].minutes);
    for (number, job) in jobs.iter_mut().enumerate() {
        if Some(number) != longest && is_heavy(*head, job) && is_chosen(job, rng) {
            job.minutes = rng.range(0, weights::most_light(*head));
        }
    }
}

/// Adds a heavy job with one bench, or puts it in the place of a light one. None is longer than T,
/// and the longest job does not become shorter.
fn add_with_one_bench(rng: &mut Rng, day: &mut Day) {
    let bench = rng.range(0, day.head.benches - 1);
    add_on(rng, day, bench);
}

fn add_on(rng: &mut Rng, day: &mut Day, bench: u64) {
    let Day { head, jobs, .. } = day;
    let job = Job { minutes: weights::heavy(rng, *head), allowed: bench_bit(bench) };
    if jobs.len() < MAX_JOBS {
        jobs.insert(rng.below(jobs.len() + 1), job);
        return;
    }
    let light: Vec<usize> = (0..jobs.len()).filter(|&job| !is_heavy(*head, &jobs[job])).collect();
    if !light.is_empty() {
        jobs[rng.pick(&light)] = job;
    }
}

/// Puts two more heavy jobs on one bench, so that there is no placement, and gives the benches that
/// have no heavy job in common with it.
pub fn crowd(rng: &mut Rng, day: &mut Day) -> Set {
    let bench = rng.range(0, day.head.benches - 1);
    add_on(rng, day, bench);
    add_on(rng, day, bench);
    let here = day.jobs.iter().filter(|job| job.allows(bench) && is_heavy(day.head, job));
    let near = here.fold(0, |all, job| all | job.allowed);
    Set::first(day.head.benches as usize) - Set(near)
}

/// Some benches of a day, one at least.
pub fn any_set(rng: &mut Rng, benches: u64) -> Set {
    let all = Set::first(benches as usize);
    let some = match rng.below(4) {
        0 => all,
        1 => all & Set(rng.word() | rng.word()),
        2 => all & Set(rng.word() & rng.word()),
        _ => all & Set(rng.word()),
    };
    some | Set::one(rng.below(benches as usize))
}

/// Brings the least weight of a set to k × T, one more or one less, where it is not above that
/// already.
pub fn level(rng: &mut Rng, day: &mut Day, set: Set) {
    let wanted = (set.len() as u64 * day.head.target + rng.range(0, 2)).saturating_sub(1);
    bring_to(rng, day, set, wanted);
}

/// A small day, with a set that is brought so.
pub fn levelled(rng: &mut Rng) -> (Day, Set) {
    let size = small(rng);
    let mut day = any(rng, size);
    let set = any_set(rng, day.head.benches);
    level(rng, &mut day, set);
    (day, set)
}

/// Brings the least weight of a set to a number, by light jobs inside and by bookings, where it is
/// not above that already.
pub fn bring_to(rng: &mut Rng, day: &mut Day, set: Set, wanted: u64) {
    let mut codec = Codec::default();
    let bytes = day.draft().bytes();
    let weight = codec.read(&bytes).ok().and_then(|sheet| least_weight(sheet, set));
    let Some(mut missing) = weight.and_then(|weight| wanted.checked_sub(weight)) else { return };
    let benches: Vec<usize> = set.collect();
    let most = weights::most_light(day.head).min(MOST_MINUTES);
    let by_jobs = rng.pick(&[0, 4, 40]);
    for _ in 0..by_jobs {
        if missing == 0 || most == 0 || day.jobs.len() == MAX_JOBS {
            break;
        }
        let minutes = rng.range(1, most).min(missing);
        let allowed = Set::one(rng.pick(&benches)) | Set::one(rng.pick(&benches));
        let place = rng.below(day.jobs.len() + 1);
        day.jobs.insert(place, Job { minutes, allowed: allowed.0 });
        missing -= minutes;
    }
    for bench in benches {
        let booked = &mut day.booked[bench];
        let more = missing.min(MOST_MINUTES - *booked);
        *booked += more;
        missing -= more;
    }
}

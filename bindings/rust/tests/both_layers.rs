//! The types and the functions on bytes say the same of random days, good and bad.

use std::collections::BTreeSet;
use yinqocha::{
    door, Bench, Benches, Best, Comparison, Fault, Head, Job, PageCheck, Plan, PlanCheck, Refusal,
    SetCheck, Share, Sheet, MAX_WRITTEN_BYTES,
};

const DAYS: usize = 3000;

/// Seeded random numbers: xorshift64.
struct Rng(u64);

impl Rng {
    fn below(&mut self, bound: u64) -> u64 {
        self.0 ^= self.0 << 13;
        self.0 ^= self.0 >> 7;
        self.0 ^= self.0 << 17;
        (self.0 >> 16) % bound
    }

    /// One of a number of values, seldom one that is bad.
    fn mostly(&mut self, good: u64, bad: u64) -> u64 {
        if self.below(60) == 0 {
            bad
        } else {
            self.below(good)
        }
    }

    /// One or two benches of so many, or any.
    fn set(&mut self, benches: u64) -> Benches {
        let one = self.mostly(benches.clamp(1, 64), 63);
        let other = self.below(benches.clamp(1, 64));
        match self.below(50) {
            0 => Benches::EMPTY,
            1 => Benches::first(benches),
            _ => Benches::of([one, other]).expect("benches"),
        }
    }
}

/// The fields of a day.
struct Day {
    head: Head,
    booked: Vec<u64>,
    jobs: Vec<Job>,
}

impl Day {
    fn random(rng: &mut Rng) -> Day {
        let benches = 1 + rng.mostly([2, 4, 8, 64][rng.0 as usize % 4], 64 + rng.0 % 3);
        let share = [(4, 7), (2, 3), (3, 4), (126, 127), (1, 2)][rng.mostly(4, 4) as usize];
        let share = Share { p: share.0, q: share.1 };
        let head = Head { benches, share, target: rng.mostly(150, 1 << 30) };
        let bookings = rng.mostly(benches, 200);
        let booked = (0..bookings).map(|_| rng.below(4) * rng.mostly(20, 1 << 20)).collect();
        let count = rng.mostly(24, 505 + rng.0 % 20);
        let job = |_| match count {
            0..=100 => Job { minutes: rng.mostly(80, 1 << 20), allowed: rng.set(benches) },
            // A day of so many jobs has no other fault than their number.
            _ => Job { minutes: rng.below(80), allowed: Benches::first(benches.min(2)) },
        };
        Day { head, booked, jobs: (0..count).map(job).collect() }
    }
}

/// The kinds of answers that were met: the call, and its value or its fault.
#[derive(Default)]
struct Met(BTreeSet<String>);

impl Met {
    fn add(&mut self, call: &str, word: u64) {
        self.0.insert(match door::fault(word) {
            0 => format!("{call}: {}", door::value(word)),
            number => format!("{call}: fault {number}"),
        });
    }

    /// Fails where a call did not meet each of these values and faults.
    fn expect(&self, call: &str, values: &[u32], faults: &[u32]) {
        let values = values.iter().map(|value| format!("{call}: {value}"));
        let faults = faults.iter().map(|number| format!("{call}: fault {number}"));
        for kind in values.chain(faults) {
            assert!(self.0.contains(&kind), "not met: {kind}");
        }
    }
}

fn table(numbers: impl IntoIterator<Item = u64>) -> Vec<u8> {
    numbers.into_iter().flat_map(u64::to_le_bytes).collect()
}

fn entries(table: &[u8]) -> Vec<u64> {
    let entry = |bytes: &[u8]| u64::from_le_bytes(bytes.try_into().expect("8 bytes"));
    table.chunks_exact(8).map(entry).collect()
}

/// The result word of what the types say.
fn word<T>(said: Result<T, Fault>, value: impl FnOnce(T) -> u64) -> u64 {
    match said {
        Ok(said) => value(said),
        Err(fault) => u64::from(fault.number()) << 32 | u64::from(fault.place()),
    }
}

/// Writes the day in both ways.
fn written(day: &Day, met: &mut Met) -> Option<Sheet> {
    let Head { benches, share: Share { p, q }, target } = day.head;
    let minutes = table(day.jobs.iter().map(|job| job.minutes));
    let allowed = table(day.jobs.iter().map(|job| job.allowed.bits()));
    let booked = table(day.booked.iter().copied());
    let mut out = [0; MAX_WRITTEN_BYTES];
    let head = [benches, p, q, target];
    let found = door::write(head, Some(&booked), Some(&minutes), Some(&allowed), Some(&mut out));
    met.add("write", found);
    let sheet = Sheet::write(day.head, &day.booked, &day.jobs);
    assert_eq!(word(sheet.clone(), |sheet| sheet.as_bytes().len() as u64), found);
    let sheet = sheet.ok()?;
    assert_eq!(sheet.as_bytes(), &out[..found as usize]);
    Some(sheet)
}

/// Reads bytes in both ways.
fn read(bytes: &[u8], met: &mut Met) {
    let mut contents = vec![0; 8 * (68 + 2 * 512)];
    let found = door::read(Some(bytes), Some(&mut contents));
    met.add("read", found);
    let sheet = Sheet::read(bytes);
    assert_eq!(word(sheet.clone(), |sheet| sheet.jobs().len() as u64), found);
    let Ok(sheet) = sheet else { return };
    let Head { benches, share: Share { p, q }, target } = sheet.head();
    let mut expected = vec![benches, p, q, target];
    expected.extend(Benches::first(64).iter().map(|bench| sheet.booked(bench)));
    expected.extend(sheet.jobs().iter().flat_map(|job| [job.minutes, job.allowed.bits()]));
    assert_eq!(entries(&contents)[..expected.len()], expected);
}

/// The entries of the tables of a plan, for as many jobs and benches as the sheet has.
fn rows(plan: &Plan) -> [Vec<u64>; 2] {
    [plan.places().iter().copied().map(Bench::number).collect(), plan.loads().to_vec()]
}

/// Plans the sheet and finds its best target in both ways. The answers are the plan's and the
/// search's tables.
fn planned(sheet: &Sheet, met: &mut Met) {
    let sizes = [sheet.jobs().len(), sheet.benches() as usize];
    let [mut places, mut loads] = sizes.map(|entries| vec![0; 8 * entries]);
    let (mut answer, mut found) = ([0; 24], [0; 40]);
    let bytes = sheet.as_bytes();
    let said = door::plan(Some(bytes), Some(&mut places), Some(&mut loads), Some(&mut answer));
    met.add("plan", said);
    let (value, expected) = match sheet.plan().expect("no fault") {
        Ok(plan) => {
            assert_eq!(rows(&plan), [entries(&places), entries(&loads)]);
            (door::PLAN, vec![plan.largest(), plan.moves(), plan.fullest().number()])
        }
        Err(Refusal::Long { job }) => (door::LONG, vec![job as u64, 0, 0]),
        Err(Refusal::None { set, moves }) => (door::NONE, vec![set.bits(), moves, 0]),
    };
    assert_eq!((said, entries(&answer)), (u64::from(value), expected));
    let said = door::best(Some(bytes), Some(&mut places), Some(&mut loads), Some(&mut found));
    let Best { target, runs, plan } = sheet.best().expect("no fault");
    let expected = vec![target, plan.largest(), plan.moves(), plan.fullest().number(), runs];
    assert_eq!((said, entries(&found)), (u64::from(door::BEST), expected));
    assert_eq!(rows(&plan), [entries(&places), entries(&loads)]);
}

/// A list of the lowest benches of the jobs, seldom with others or with one place more.
fn list(sheet: &Sheet, rng: &mut Rng) -> Vec<u64> {
    let own = sheet.jobs().iter().map(|job| u64::from(job.allowed.bits().leading_zeros()));
    let any = |place| if rng.below(40) == 0 { rng.below(66) } else { place };
    let mut list: Vec<u64> = own.map(any).collect();
    list.resize(list.len() + rng.mostly(1, 1) as usize, 0);
    list
}

/// Compares and checks lists in both ways.
fn lists_checked(sheet: &Sheet, rng: &mut Rng, met: &mut Met) {
    let bytes = Some(sheet.as_bytes());
    let lists = [list(sheet, rng), list(sheet, rng)];
    let [first, second] = lists.each_ref().map(|list| table(list.iter().copied()));
    let found = door::compare(bytes, Some(&first), Some(&second));
    met.add("compare", found);
    let said = sheet.compare(&lists[0], &lists[1]);
    assert_eq!(word(said, |said| u64::from(said == Comparison::Same)), found);

    let mut answer = [0; 16];
    let found = door::check_plan(bytes, Some(&first), Some(&mut answer));
    met.add("check plan", found);
    let (said, expected) = match sheet.check_plan(&lists[0]) {
        Ok(PlanCheck::Passed { largest, fullest }) => {
            (Ok(door::PASSED), [largest, fullest.number()])
        }
        Ok(PlanCheck::NotPassed) => (Ok(door::NOT_PASSED), [0, 0]),
        Err(fault) => (Err(fault), [0, 0]),
    };
    assert_eq!((word(said, u64::from), entries(&answer)), (found, expected.to_vec()));
}

/// Checks a set and a page in both ways.
fn sets_checked(sheet: &Sheet, rng: &mut Rng, met: &mut Met) {
    let bytes = Some(sheet.as_bytes());
    let page: Vec<Benches> = (0..rng.mostly(3, 70)).map(|_| rng.set(sheet.benches())).collect();
    let set = page.first().copied().unwrap_or_default();
    let mut answer = [0; 8];
    let found = door::check_set(bytes, set.bits(), Some(&mut answer));
    met.add("check set", found);
    let (said, expected) = match sheet.check_set(set) {
        Ok(SetCheck::Passed) => (Ok(door::PASSED), 0),
        Ok(SetCheck::NotPassed) => (Ok(door::NOT_PASSED), 0),
        Ok(SetCheck::Long { job }) => (Ok(door::LONG), job as u64),
        Err(fault) => (Err(fault), 0),
    };
    assert_eq!((word(said, u64::from), entries(&answer)), (found, vec![expected]));

    let mut answer = [0; 8];
    let sets = table(page.iter().map(|set| set.bits()));
    let found = door::check_page(bytes, Some(&sets), Some(&mut answer));
    met.add("check page", found);
    let (said, expected) = match sheet.check_page(&page) {
        Ok(PageCheck::Passed) => (Ok(door::PASSED), 0),
        Ok(PageCheck::NotPassed { set }) => (Ok(door::NOT_PASSED), set as u64),
        Ok(PageCheck::Long { job }) => (Ok(door::LONG), job as u64),
        Err(fault) => (Err(fault), 0),
    };
    assert_eq!((word(said, u64::from), entries(&answer)), (found, vec![expected]));
}

/// A byte of the sheet is another, or its end is lost.
fn damaged(sheet: &Sheet, rng: &mut Rng) -> Vec<u8> {
    let mut bytes = sheet.as_bytes().to_vec();
    let at = rng.below(bytes.len() as u64) as usize;
    match rng.below(4) {
        0 => bytes.truncate(at),
        _ => bytes[at] ^= 1 << rng.below(8),
    }
    bytes
}

#[test]
fn both_layers_say_the_same() {
    let mut rng = Rng(0x9E37_79B9_7F4A_7C15);
    let mut met = Met::default();
    for _ in 0..DAYS {
        let Some(sheet) = written(&Day::random(&mut rng), &mut met) else { continue };
        read(sheet.as_bytes(), &mut met);
        read(&damaged(&sheet, &mut rng), &mut met);
        planned(&sheet, &mut met);
        lists_checked(&sheet, &mut rng, &mut met);
        sets_checked(&sheet, &mut rng, &mut met);
    }
    met.expect("write", &[], &[7, 8, 9, 10, 11, 12, 14]);
    met.expect("read", &[0, 1, 23], &[2, 3, 4, 5, 6, 7, 8, 11, 12, 14]);
    met.expect("plan", &[door::PLAN, door::LONG, door::NONE], &[]);
    met.expect("compare", &[door::SAME, door::DIFFERENT], &[13]);
    met.expect("check plan", &[door::PASSED, door::NOT_PASSED], &[16]);
    met.expect("check set", &[door::PASSED, door::NOT_PASSED, door::LONG], &[17]);
    met.expect("check page", &[door::PASSED, door::NOT_PASSED, door::LONG], &[17, 18]);
}

//! What a sheet is asked: planning, the best target, comparisons and checks.

use crate::bench::Bench;
use crate::benches::Benches;
use crate::checked::{Comparison, PageCheck, PlanCheck, SetCheck};
use crate::fault::{Call, Fault};
use crate::planned::{Best, Plan, Refusal};
use crate::sheet::Sheet;
use crate::table::Table;
use crate::{door, MAX_BENCHES, MAX_JOBS};

/// A list of places, or the beginning of one that is longer than any sheet's: the entry behind that
/// of the last job is a fault whatever it is, and none behind it is looked at.
struct List {
    table: Table<{ MAX_JOBS + 1 }>,
    entries: usize,
}

impl List {
    fn of<P: Copy + Into<u64>>(places: &[P]) -> List {
        let numbers = places.iter().map(|&place| place.into());
        List { table: Table::of(numbers), entries: places.len() }
    }

    fn bytes(&self) -> &[u8] {
        self.table.first(self.entries)
    }
}

/// The tables of a plan.
struct Tables {
    places: Table<MAX_JOBS>,
    loads: Table<MAX_BENCHES>,
}

impl Tables {
    const fn new() -> Tables {
        Tables { places: Table::new(), loads: Table::new() }
    }

    /// The plan that was left in the tables, if they hold one.
    fn plan(&self, sheet: &Sheet, largest: u64, moves: u64, fullest: u64) -> Option<Plan> {
        let mut places = [Bench::FIRST; MAX_JOBS];
        for (place, number) in places.iter_mut().zip(self.places.numbers()) {
            *place = Bench::new(number)?;
        }
        Some(Plan {
            places,
            places_len: sheet.jobs().len(),
            loads: self.loads.numbers(),
            loads_len: usize::try_from(sheet.benches()).ok()?,
            largest,
            moves,
            fullest: Bench::new(fullest)?,
        })
    }
}

/// The number of a job or of a set in an answer table.
fn index(number: u64) -> usize {
    usize::try_from(number).unwrap_or(usize::MAX)
}

impl Sheet {
    /// Plans the sheet with its own target. If some assignment keeps every bench within the target,
    /// there is a plan; a refusal is proof that none does.
    ///
    /// # Errors
    ///
    /// A sheet has no fault, so that only [`Fault::UNKNOWN_ANSWER`] can come, of a library of
    /// another version.
    ///
    /// ```
    /// # use yinqocha::{Benches, Fault, Head, Job, Refusal, Share, Sheet};
    /// let head = Head { benches: 2, share: Share { p: 4, q: 7 }, target: 9 };
    /// let job = Job { minutes: 5, allowed: Benches::first(2) };
    /// let sheet = Sheet::write(head, &[0, 4], &[job; 3])?;
    /// match sheet.plan()? {
    ///     Ok(plan) => assert_eq!(plan.largest(), 15),
    ///     Err(refusal) => panic!("no plan: {refusal}"),
    /// }
    /// let refused = sheet.with_target(8)?.plan()?;
    /// assert_eq!(refused, Err(Refusal::None { set: Benches::first(2), moves: 0 }));
    /// assert_eq!(sheet.with_target(4)?.plan()?, Err(Refusal::Long { job: 0 }));
    /// # Ok::<(), Fault>(())
    /// ```
    pub fn plan(&self) -> Result<Result<Plan, Refusal>, Fault> {
        let mut tables = Tables::new();
        let mut answer = Table::<{ door::ANSWER_ENTRIES }>::new();
        let word = door::plan(
            Some(self.as_bytes()),
            Some(tables.places.bytes_mut()),
            Some(tables.loads.bytes_mut()),
            Some(answer.bytes_mut()),
        );
        let value = Fault::of(Call::Plan, word)?;
        let unknown = Fault::unknown_answer(Call::Plan, value);
        let [first, moves, fullest] = answer.numbers();
        match value {
            door::PLAN => tables.plan(self, first, moves, fullest).map(Ok).ok_or(unknown),
            door::LONG => Ok(Err(Refusal::Long { job: index(first) })),
            door::NONE => Ok(Err(Refusal::None { set: Benches::from_bits(first), moves })),
            _ => Err(unknown),
        }
    }

    /// Finds the best target of the sheet, with its plan. The sheet's own target is not looked at.
    ///
    /// # Errors
    ///
    /// A sheet has no fault, so that only [`Fault::UNKNOWN_ANSWER`] can come, of a library of
    /// another version.
    ///
    /// ```
    /// # use yinqocha::{Benches, Fault, Head, Job, Share, Sheet};
    /// let head = Head { benches: 2, share: Share { p: 4, q: 7 }, target: 0 };
    /// let job = Job { minutes: 5, allowed: Benches::first(2) };
    /// let sheet = Sheet::write(head, &[0, 4], &[job; 3])?;
    /// let best = sheet.best()?;
    /// assert_eq!(sheet.with_target(best.target)?.plan()?, Ok(best.plan));
    /// assert!(sheet.with_target(best.target - 1)?.plan()?.is_err());
    /// # Ok::<(), Fault>(())
    /// ```
    pub fn best(&self) -> Result<Best, Fault> {
        let mut tables = Tables::new();
        let mut answer = Table::<{ door::BEST_ENTRIES }>::new();
        let word = door::best(
            Some(self.as_bytes()),
            Some(tables.places.bytes_mut()),
            Some(tables.loads.bytes_mut()),
            Some(answer.bytes_mut()),
        );
        let value = Fault::of(Call::Best, word)?;
        let [target, largest, moves, fullest, runs] = answer.numbers();
        let plan = tables.plan(self, largest, moves, fullest).filter(|_| value == door::BEST);
        let plan = plan.ok_or(Fault::unknown_answer(Call::Best, value))?;
        Ok(Best { target, runs, plan })
    }

    /// Says whether two lists of places are the same, job by job: entry j of a list is the bench of
    /// job j, as a [`Bench`] or as a number.
    ///
    /// # Errors
    ///
    /// The fault [`Fault::NO_ASSIGNMENT`] where a list does not give each job one bench that it
    /// allows, with place 0 for the first list and 1 for the second.
    ///
    /// ```
    /// # use yinqocha::{Benches, Comparison, Fault, Head, Job, Share, Sheet};
    /// let head = Head { benches: 2, share: Share { p: 4, q: 7 }, target: 8 };
    /// let job = Job { minutes: 5, allowed: Benches::first(2) };
    /// let sheet = Sheet::write(head, &[], &[job; 2])?;
    /// let best = sheet.best()?.plan;
    /// if let Ok(plan) = sheet.plan()? {
    ///     assert_eq!(sheet.compare(plan.places(), best.places())?, Comparison::Same);
    /// }
    /// let fault = sheet.compare(best.places(), &[0_u64, 2]).map_err(Fault::number);
    /// assert_eq!(fault, Err(Fault::NO_ASSIGNMENT));
    /// # Ok::<(), Fault>(())
    /// ```
    pub fn compare<P, Q>(&self, first: &[P], second: &[Q]) -> Result<Comparison, Fault>
    where
        P: Copy + Into<u64>,
        Q: Copy + Into<u64>,
    {
        self.compare_lists(&List::of(first), &List::of(second))
    }

    fn compare_lists(&self, first: &List, second: &List) -> Result<Comparison, Fault> {
        let word = door::compare(Some(self.as_bytes()), Some(first.bytes()), Some(second.bytes()));
        match Fault::of(Call::Compare, word)? {
            door::SAME => Ok(Comparison::Same),
            door::DIFFERENT => Ok(Comparison::Different),
            value => Err(Fault::unknown_answer(Call::Compare, value)),
        }
    }

    /// Checks a list of places against the sheet and its target: entry j is the bench of job j, as
    /// a [`Bench`] or as a number. A plan of [`Sheet::plan`] always passes, one of [`Sheet::best`]
    /// with the target found.
    ///
    /// # Errors
    ///
    /// The fault [`Fault::BAD_LIST`] where the list does not have one place a job.
    ///
    /// ```
    /// # use yinqocha::{Bench, Benches, Fault, Head, Job, PlanCheck, Share, Sheet};
    /// let head = Head { benches: 2, share: Share { p: 4, q: 7 }, target: 8 };
    /// let job = Job { minutes: 5, allowed: Benches::first(2) };
    /// let sheet = Sheet::write(head, &[0, 4], &[job; 3])?;
    /// let said = sheet.check_plan(&[0_u64, 1, 1])?;
    /// assert_eq!(said.to_string(), "passed, largest load 14 on bench 1");
    /// assert_eq!(sheet.check_plan(&[0_u64, 0, 2])?, PlanCheck::NotPassed);
    /// assert_eq!(sheet.check_plan(&[0_u64, 0]).map_err(Fault::number), Err(Fault::BAD_LIST));
    /// # Ok::<(), Fault>(())
    /// ```
    pub fn check_plan<P: Copy + Into<u64>>(&self, places: &[P]) -> Result<PlanCheck, Fault> {
        self.check_list(&List::of(places))
    }

    fn check_list(&self, list: &List) -> Result<PlanCheck, Fault> {
        let mut answer = Table::<{ door::CHECK_PLAN_ENTRIES }>::new();
        let word =
            door::check_plan(Some(self.as_bytes()), Some(list.bytes()), Some(answer.bytes_mut()));
        let value = Fault::of(Call::CheckPlan, word)?;
        let [largest, fullest] = answer.numbers();
        match (value, Bench::new(fullest)) {
            (door::PASSED, Some(fullest)) => Ok(PlanCheck::Passed { largest, fullest }),
            (door::NOT_PASSED, _) => Ok(PlanCheck::NotPassed),
            _ => Err(Fault::unknown_answer(Call::CheckPlan, value)),
        }
    }

    /// Checks whether a set of benches is blocking for the sheet and its target. The set of a
    /// [`Refusal::None`] always passes.
    ///
    /// # Errors
    ///
    /// The fault [`Fault::BAD_SET`] where the set is empty, with place 0, or has a bench that the
    /// head lacks, with the lowest such bench as place.
    ///
    /// ```
    /// # use yinqocha::{Benches, Fault, Head, Job, SetCheck, Share, Sheet};
    /// let head = Head { benches: 2, share: Share { p: 4, q: 7 }, target: 9 };
    /// let job = Job { minutes: 5, allowed: Benches::first(2) };
    /// let sheet = Sheet::write(head, &[0, 4], &[job; 3])?;
    /// assert_eq!(sheet.check_set(Benches::first(2))?, SetCheck::Passed);
    /// assert_eq!(sheet.check_set(Benches::first(1))?, SetCheck::NotPassed);
    /// assert_eq!(sheet.with_target(4)?.check_set(Benches::first(1))?, SetCheck::Long { job: 0 });
    /// assert_eq!(sheet.check_set(Benches::first(3)).map_err(Fault::place), Err(2));
    /// # Ok::<(), Fault>(())
    /// ```
    pub fn check_set(&self, set: Benches) -> Result<SetCheck, Fault> {
        let mut answer = Table::<{ door::CHECK_SET_ENTRIES }>::new();
        let word = door::check_set(Some(self.as_bytes()), set.bits(), Some(answer.bytes_mut()));
        let value = Fault::of(Call::CheckSet, word)?;
        let [job] = answer.numbers();
        match value {
            door::PASSED => Ok(SetCheck::Passed),
            door::NOT_PASSED => Ok(SetCheck::NotPassed),
            door::LONG => Ok(SetCheck::Long { job: index(job) }),
            _ => Err(Fault::unknown_answer(Call::CheckSet, value)),
        }
    }

    /// Checks a page of sets: it passes if every set is blocking and no two share a bench. Then the
    /// union of the sets is blocking, if there is one.
    ///
    /// # Errors
    ///
    /// For each set in page order the fault [`Fault::BAD_SET`] where it is empty or has a bench
    /// that the head lacks, and [`Fault::SHARED_BENCH`] where it shares a bench with an earlier
    /// set, both with the number of the set as place.
    ///
    /// ```
    /// # use yinqocha::{Bench, Benches, Fault, Head, PageCheck, Share, Sheet};
    /// let head = Head { benches: 4, share: Share { p: 4, q: 7 }, target: 8 };
    /// let sheet = Sheet::write(head, &[9, 0, 9], &[])?;
    /// let [a, b, c] = [0, 1, 2].map(|bench| Benches::of([bench]).unwrap_or_default());
    /// assert_eq!(sheet.check_page(&[a, c])?, PageCheck::Passed);
    /// assert_eq!(sheet.check_page(&[a, b, c])?, PageCheck::NotPassed { set: 1 });
    /// let fault = sheet.check_page(&[a, c, a | b]).map_err(Fault::number);
    /// assert_eq!(fault, Err(Fault::SHARED_BENCH));
    /// # Ok::<(), Fault>(())
    /// ```
    pub fn check_page(&self, sets: &[Benches]) -> Result<PageCheck, Fault> {
        // A page has a fault at set 64 at the latest, and none behind it is looked at.
        let page: Table<{ MAX_BENCHES + 1 }> = Table::of(sets.iter().map(|set| set.bits()));
        let mut answer = Table::<{ door::CHECK_PAGE_ENTRIES }>::new();
        let word = door::check_page(
            Some(self.as_bytes()),
            Some(page.first(sets.len())),
            Some(answer.bytes_mut()),
        );
        let value = Fault::of(Call::CheckPage, word)?;
        let [number] = answer.numbers();
        match value {
            door::PASSED => Ok(PageCheck::Passed),
            door::NOT_PASSED => Ok(PageCheck::NotPassed { set: index(number) }),
            door::LONG => Ok(PageCheck::Long { job: index(number) }),
            _ => Err(Fault::unknown_answer(Call::CheckPage, value)),
        }
    }
}

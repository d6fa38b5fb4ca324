//! Threads: what may be sent and shared, and how much stack a call needs.

use std::error::Error;
use std::thread;
use yinqocha::{
    Bench, Benches, BenchesIter, Best, Call, Comparison, Fault, Head, Job, PageCheck, Plan,
    PlanCheck, Refusal, SetCheck, Share, Sheet,
};

/// The stack that the documentation of the crate names.
const STACK: usize = 160 << 10;

#[test]
fn every_type_may_be_sent_and_shared() {
    fn is_so<T: Send + Sync + Unpin + 'static>() {}
    is_so::<Sheet>();
    is_so::<(Head, Share, Job, Bench, Benches, BenchesIter)>();
    is_so::<(Plan, Refusal, Best, Fault, Call)>();
    is_so::<(Comparison, PlanCheck, SetCheck, PageCheck)>();
    fn is_error<T: Error>() {}
    is_error::<Fault>();
    is_error::<Refusal>();
}

/// A full sheet, half of its jobs with two benches and half with all.
fn full() -> Sheet {
    let head = Head { benches: 64, share: Share { p: 4, q: 7 }, target: 700 };
    let job = |job: u64| match job % 2 {
        0 => Job { minutes: 100, allowed: Benches::of([job % 64, job / 8]).unwrap_or_default() },
        _ => Job { minutes: 57, allowed: Benches::first(64) },
    };
    let jobs: Vec<Job> = (0..512).map(job).collect();
    Sheet::write(head, &[1; 64], &jobs).expect("no fault")
}

/// What a call gives in a thread of its own with that stack.
fn called<T: Send + 'static>(call: impl FnOnce() -> T + Send + 'static) -> Box<T> {
    let boxed = move || Box::new(call());
    let thread = thread::Builder::new().stack_size(STACK).spawn(boxed).expect("a thread");
    thread.join().expect("the thread ends")
}

#[test]
fn the_stack_that_is_named_is_enough() {
    let sheet: &'static Sheet = Box::leak(Box::new(full()));
    let plan = called(|| sheet.plan()).expect("no fault").expect("a plan");
    let best = called(|| sheet.best()).expect("no fault");
    assert_eq!(called(|| Sheet::read(sheet.as_bytes())).as_ref().as_ref(), Ok(sheet));
    assert_eq!(called(|| sheet.with_target(700)).as_ref().as_ref(), Ok(sheet));
    let places = plan.places().to_vec();
    assert!(matches!(*called(move || sheet.check_plan(&places)), Ok(PlanCheck::Passed { .. })));
    assert!(called(move || sheet.compare(plan.places(), best.plan.places())).is_ok());
    let all = Benches::first(64);
    assert_eq!(*called(move || sheet.check_set(all)), Ok(SetCheck::NotPassed));
    assert_eq!(*called(move || sheet.check_page(&[all])), Ok(PageCheck::NotPassed { set: 0 }));
}

#[test]
fn threads_plan_one_sheet_at_the_same_time() {
    let sheet = full();
    let alone = sheet.plan();
    thread::scope(|scope| {
        let threads = [0; 4].map(|_| scope.spawn(|| sheet.plan()));
        for thread in threads {
            assert_eq!(thread.join().expect("the thread ends"), alone);
        }
    });
}

//! Every answer of every call, on the days of the library's manual and on others.

use yinqocha::{
    Bench, Benches, Comparison, Fault, Head, Job, PageCheck, Plan, PlanCheck, Refusal, SetCheck,
    Share, Sheet,
};

fn head(benches: u64, target: u64) -> Head {
    Head { benches, share: Share { p: 4, q: 7 }, target }
}

fn benches(numbers: &[u64]) -> Benches {
    Benches::of(numbers.iter().copied()).expect("the numbers are benches")
}

fn bench(number: u64) -> Bench {
    Bench::new(number).expect("the number is a bench")
}

/// Jobs on bench 0 or 1.
fn jobs(minutes: &[u64]) -> Vec<Job> {
    minutes.iter().map(|&minutes| Job { minutes, allowed: benches(&[0, 1]) }).collect()
}

/// Four jobs of 2 minutes and a check, booked for 2 and 3.
fn day(target: u64) -> Sheet {
    Sheet::write(head(2, target), &[2, 3], &jobs(&[2, 2, 2, 2, 0])).expect("no fault")
}

fn numbers(plan: &Plan) -> Vec<u64> {
    plan.places().iter().map(|place| place.number()).collect()
}

#[test]
fn what_is_written_is_read() -> Result<(), Fault> {
    let jobs = [
        Job { minutes: 5, allowed: benches(&[0, 63]) },
        Job { minutes: 0, allowed: Benches::first(64) },
        Job { minutes: 1_048_575, allowed: benches(&[62]) },
    ];
    let written = Sheet::write(head(64, 1_073_741_823), &[7, 0, 1_048_575], &jobs)?;
    assert_eq!(written.as_bytes().len(), 10 + 7 * 2 + 14 * 3 + 3);
    let read = Sheet::read(written.as_bytes())?;
    assert_eq!(read, written);
    assert_eq!((read.head(), read.jobs()), (head(64, 1_073_741_823), &jobs[..]));
    assert_eq!([0, 1, 2, 63].map(|b| read.booked(bench(b))), [7, 0, 1_048_575, 0]);
    assert_eq!((read.benches(), read.target()), (64, 1_073_741_823));
    assert_eq!(read.share(), Share { p: 4, q: 7 });
    assert_eq!(Sheet::try_from(read.as_ref())?, written);
    Ok(())
}

#[test]
fn the_largest_sheet_is_written_and_read() -> Result<(), Fault> {
    let jobs = [Job { minutes: 9, allowed: benches(&[63]) }; 512];
    let written = Sheet::write(head(64, 9), &[1; 64], &jobs)?;
    assert_eq!(written.as_bytes().len(), yinqocha::MAX_WRITTEN_BYTES);
    assert_eq!(Sheet::read(written.as_bytes())?, written);
    assert_eq!(written.best()?.plan.places(), [bench(63); 512]);
    Ok(())
}

/// Frames of other versions and bookings of 0 minutes are passed over.
#[test]
fn a_sheet_that_was_read_has_its_written_form() -> Result<(), Fault> {
    let plain = *b"\x11\x00\x07\x06\x10\x38\x00\x00\x01\x20\x13\x00\x00";
    let (start, end) = plain.split_at(10);
    let foreign = b"\x21\x00\x01\xFF";
    let booked_for_0 = b"\x14\x00\x04\x00\x00\x00\x00";
    let longer = [&foreign[..], start, &booked_for_0[..], end, &foreign[..]].concat();
    let sheet = Sheet::read(&longer)?;
    assert_eq!(sheet.as_bytes(), plain);
    assert_eq!(sheet, Sheet::read(&plain)?);
    Ok(())
}

#[test]
fn planning_gives_each_of_its_answers() -> Result<(), Fault> {
    assert_eq!(day(1).plan()?, Err(Refusal::Long { job: 0 }));
    let blocking = benches(&[0, 1]);
    assert_eq!(day(3).plan()?, Err(Refusal::None { set: blocking, moves: 0 }));
    let plan = day(4).plan()?.expect("a plan");
    assert_eq!((numbers(&plan), plan.loads()), (vec![1, 1, 0, 0, 0], &[6, 7][..]));
    assert_eq!((plan.largest(), plan.moves(), plan.fullest()), (7, 2, bench(1)));
    assert_eq!(plan.jobs_on(bench(0)).collect::<Vec<_>>(), [2, 3, 4]);
    assert_eq!(plan.jobs_on(bench(63)).count(), 0);
    Ok(())
}

#[test]
fn long_names_the_lowest_job() -> Result<(), Fault> {
    let sheet = Sheet::write(head(2, 4), &[9], &jobs(&[4, 5, 6]))?;
    assert_eq!(sheet.plan()?, Err(Refusal::Long { job: 1 }));
    assert_eq!(sheet.check_set(Benches::first(1))?, SetCheck::Long { job: 1 });
    assert_eq!(sheet.check_page(&[])?, PageCheck::Long { job: 1 });
    Ok(())
}

#[test]
fn a_sheet_without_jobs_has_a_plan() -> Result<(), Fault> {
    let plan = Sheet::write(head(3, 0), &[], &[])?.plan()?.expect("a plan");
    assert_eq!((plan.places(), plan.loads()), (&[][..], &[0, 0, 0][..]));
    assert_eq!((plan.largest(), plan.fullest()), (0, bench(0)));
    Ok(())
}

#[test]
fn the_best_target_has_the_plan_of_its_target() -> Result<(), Fault> {
    let best = day(0).best()?;
    assert_eq!((best.target, best.runs), (4, 5));
    assert_eq!(day(4).plan()?.as_ref(), Ok(&best.plan));
    assert!(day(3).plan()?.is_err());
    assert_eq!(day(9).with_target(4)?, day(4));
    Ok(())
}

#[test]
fn comparing_gives_both_answers() -> Result<(), Fault> {
    let sheet = Sheet::write(head(2, 9), &[], &jobs(&[5, 5, 5, 0]))?;
    let list = [0_u64, 0, 1, 0];
    assert_eq!(sheet.compare(&list, &list)?, Comparison::Same);
    for other in [[1_u64, 0, 0, 0], [0, 0, 1, 1], [0, 1, 1, 0]] {
        assert_eq!(sheet.compare(&list, &other)?, Comparison::Different);
    }
    // Lists of any numbers that fit.
    assert_eq!(sheet.compare(&list.map(|place| place as u8), &list)?, Comparison::Same);
    let plan = sheet.best()?.plan;
    assert_eq!(sheet.compare(plan.places(), &numbers(&plan))?, Comparison::Same);
    Ok(())
}

#[test]
fn checking_a_list_gives_both_answers() -> Result<(), Fault> {
    let sheet = Sheet::write(head(2, 8), &[0, 4], &jobs(&[5, 5, 5]))?;
    let passed = |largest, fullest| PlanCheck::Passed { largest, fullest: bench(fullest) };
    assert_eq!(sheet.check_plan(&[0_u64, 0, 1])?, passed(10, 0));
    assert_eq!(sheet.check_plan(&[0_u64, 1, 1])?, passed(14, 1));
    for list in [[0_u64, 0, 0], [0, 0, 2], [0, 0, 64], [0, 0, u64::MAX]] {
        assert_eq!(sheet.check_plan(&list)?, PlanCheck::NotPassed);
    }
    let plan = day(4).plan()?.expect("a plan");
    assert_eq!(day(4).check_plan(plan.places())?, passed(plan.largest(), plan.fullest().number()));
    Ok(())
}

#[test]
fn checking_a_set_gives_its_answers() -> Result<(), Fault> {
    let both = benches(&[0, 1]);
    let rows = [
        (4, 0, SetCheck::Long { job: 0 }),
        (8, 0, SetCheck::Passed),
        (9, 0, SetCheck::NotPassed),
        (9, 4, SetCheck::Passed),
    ];
    for (target, booked, said) in rows {
        let sheet = Sheet::write(head(3, target), &[0, booked], &jobs(&[5, 5, 5]))?;
        assert_eq!(sheet.check_set(both)?, said);
        if let Err(Refusal::None { set, .. }) = sheet.plan()? {
            assert_eq!(sheet.check_set(set)?, SetCheck::Passed);
        }
    }
    Ok(())
}

#[test]
fn checking_a_page_gives_its_answers() -> Result<(), Fault> {
    let job = Job { minutes: 8, allowed: benches(&[1]) };
    let sheet = Sheet::write(head(4, 8), &[9, 0, 9], &[job])?;
    let [a, b, c] = [0, 1, 2].map(|number| Benches::from(bench(number)));
    assert_eq!(sheet.check_page(&[])?, PageCheck::Passed);
    assert_eq!(sheet.check_page(&[a, c])?, PageCheck::Passed);
    assert_eq!(sheet.check_set(a | c)?, SetCheck::Passed);
    assert_eq!(sheet.check_page(&[a, b])?, PageCheck::NotPassed { set: 1 });
    assert_eq!(sheet.check_page(&[b, a])?, PageCheck::NotPassed { set: 0 });
    assert_eq!(sheet.with_target(7)?.check_page(&[a, c])?, PageCheck::Long { job: 0 });
    Ok(())
}

#[test]
fn answers_are_shown_in_words() -> Result<(), Fault> {
    let sheet = day(4);
    assert_eq!(sheet.to_string(), "benches 2, share 4/7, target 4, jobs 5");
    let plan = sheet.plan()?.expect("a plan");
    assert_eq!(plan.to_string(), "largest load 7 on bench 1, moves 2");
    let best = sheet.best()?.to_string();
    assert_eq!(best, "best target 4, targets run 5, largest load 7 on bench 1, moves 2");
    let refusals = [1, 3].map(|target| day(target).plan().map(|said| said.map_err(text)));
    let expected = ["job 0 is longer than the target", "the set of benches 0,1 is blocking"];
    assert_eq!(refusals, expected.map(|words| Ok(Err(words.to_string()))));
    let said = [
        Comparison::Same.to_string(),
        Comparison::Different.to_string(),
        PlanCheck::Passed { largest: 7, fullest: bench(1) }.to_string(),
        PlanCheck::NotPassed.to_string(),
        SetCheck::Passed.to_string(),
        SetCheck::NotPassed.to_string(),
        SetCheck::Long { job: 3 }.to_string(),
        PageCheck::Passed.to_string(),
        PageCheck::NotPassed { set: 2 }.to_string(),
        PageCheck::Long { job: 3 }.to_string(),
    ];
    let expected = [
        "the same",
        "different",
        "passed, largest load 7 on bench 1",
        "not passed",
        "passed",
        "not passed",
        "job 3 is longer than the target",
        "passed",
        "set 2 is not blocking",
        "job 3 is longer than the target",
    ];
    assert_eq!(said, expected);
    Ok(())
}

fn text(refusal: Refusal) -> String {
    refusal.to_string()
}

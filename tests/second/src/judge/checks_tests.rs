use super::checks::{judge_list, judge_page, judge_set};
use super::{every_placement, is_blocking, lightest_placement, weight_of_lightest};
use crate::codec::door::Codec;
use crate::codec::fault::Fault;
use crate::gen::bay::placements;
use crate::gen::day::Day;
use crate::planner::checker::{ListCheck, PageCheck, SetCheck};
use crate::planner::example_tests::{booked, head, job};
use crate::planner::set::Set;
use crate::rng::Rng;

fn list(day: &Day, places: &[u64], check: ListCheck) -> Result<(), &'static str> {
    let mut codec = Codec::default();
    judge_list(codec.read(&day.draft().bytes()).expect("accepted"), places, check)
}

fn set(day: &Day, set: Set, check: SetCheck) -> Result<(), &'static str> {
    let mut codec = Codec::default();
    judge_set(codec.read(&day.draft().bytes()).expect("accepted"), set, check)
}

fn page(day: &Day, sets: &[Set], check: Result<PageCheck, Fault>) -> Result<(), &'static str> {
    let mut codec = Codec::default();
    judge_page(codec.read(&day.draft().bytes()).expect("accepted"), sets, check)
}

#[test]
fn wrong_checks_of_a_list_are_refused() {
    // 21 × 13 = 39 × 7.
    let day = |minutes| booked(head(3, 7), &[(2, 6)], &[job(minutes, &[1, 2]), job(0, &[0])]);
    let passed = |largest, fullest| ListCheck::Passed { largest, fullest };
    assert_eq!(list(&day(7), &[2, 0], passed(13, 2)), Ok(()));
    assert_eq!(list(&day(7), &[1, 0], passed(7, 1)), Ok(()));
    assert_eq!(list(&day(6), &[1, 0], passed(6, 1)), Ok(()));
    assert_eq!(list(&day(8), &[2, 0], ListCheck::NotPassed), Ok(()));
    assert_eq!(list(&day(7), &[0, 0], ListCheck::NotPassed), Ok(()));
    assert_eq!(list(&day(7), &[64, 0], ListCheck::NotPassed), Ok(()));
    assert!(list(&day(8), &[2, 0], passed(14, 2)).is_err());
    assert!(list(&day(7), &[0, 0], passed(7, 0)).is_err());
    assert!(list(&day(7), &[2, 0], ListCheck::NotPassed).is_err());
    assert!(list(&day(7), &[2, 0], passed(7, 2)).is_err());
    assert!(list(&day(7), &[2, 0], passed(13, 1)).is_err());
    assert!(list(&day(6), &[1, 0], passed(6, 2)).is_err());
}

#[test]
fn wrong_checks_of_a_set_are_refused() {
    let day = |target, light| Day::new(head(2, target), vec![job(8, &[0]), job(light, &[0])]);
    assert_eq!(set(&day(8, 1), Set::one(0), SetCheck::Passed), Ok(()));
    assert_eq!(set(&day(8, 0), Set::one(0), SetCheck::NotPassed), Ok(()));
    assert_eq!(set(&day(7, 1), Set::one(0), SetCheck::Long { job: 0 }), Ok(()));
    assert!(set(&day(8, 1), Set::one(0), SetCheck::NotPassed).is_err());
    assert!(set(&day(8, 0), Set::one(0), SetCheck::Passed).is_err());
    assert!(set(&day(8, 1), Set::one(0), SetCheck::Long { job: 0 }).is_err());
    assert!(set(&day(7, 1), Set::one(0), SetCheck::Passed).is_err());
    assert!(set(&day(7, 8), Set::one(0), SetCheck::Long { job: 1 }).is_err());
}

/// Benches 0 and 2 are blocking, benches 1 and 3 are not.
fn page_day(target: u64) -> Day {
    booked(head(4, target), &[(0, 9), (2, 9)], &[job(8, &[1]), job(0, &[3])])
}

#[test]
fn wrong_checks_of_a_page_are_refused() {
    let [zero, one, two, three] = [0, 1, 2, 3].map(Set::one);
    let not_passed = |set| Ok(PageCheck::NotPassed { set });
    let passed = Ok(PageCheck::Passed);
    let right = [
        (&[][..], passed),
        (&[two, zero], passed),
        (&[two, one, zero, three], not_passed(1)),
        (&[zero | one | two], passed),
    ];
    for (sets, check) in right {
        assert_eq!(page(&page_day(8), sets, check), Ok(()), "{sets:?}");
        assert_eq!(page(&page_day(7), sets, Ok(PageCheck::Long { job: 0 })), Ok(()), "{sets:?}");
        assert!(page(&page_day(7), sets, check).is_err(), "{sets:?}");
        let wrong = [passed, not_passed(0), not_passed(1), not_passed(3), not_passed(4)];
        for other in wrong.into_iter().chain([Err(Fault::new(17, 0)), Err(Fault::new(18, 1))]) {
            assert_eq!(page(&page_day(8), sets, other).is_ok(), other == check, "{sets:?}");
        }
    }
}

#[test]
fn wrong_faults_of_a_page_are_refused() {
    let [zero, one, two, four] = [0, 1, 2, 4].map(Set::one);
    let right = [
        (&[Set::EMPTY][..], Fault::new(17, 0)),
        (&[zero, four], Fault::new(17, 1)),
        (&[zero, zero | four], Fault::new(17, 1)),
        (&[zero, zero, four], Fault::new(18, 1)),
        (&[zero, one, two, two | zero], Fault::new(18, 3)),
        (&[zero, one, zero, one], Fault::new(18, 2)),
    ];
    for (sets, fault) in right {
        for number in [17, 18] {
            for place in 0..5 {
                let other = Fault::new(number, place);
                let judged = page(&page_day(8), sets, Err(other));
                assert_eq!(judged.is_ok(), other == fault, "{sets:?} {other:?}");
            }
        }
        assert!(page(&page_day(8), sets, Ok(PageCheck::Passed)).is_err(), "{sets:?}");
        assert!(page(&page_day(7), sets, Ok(PageCheck::Long { job: 0 })).is_err(), "{sets:?}");
    }
}

/// Component by component, and by every placement of all heavy jobs.
#[test]
fn both_searches_find_the_same_blocking_sets() {
    let (mut rng, mut codec) = (Rng::new(8), Codec::default());
    let mut blocking = 0;
    for _ in 0..2000 {
        let (day, set) = placements::levelled(&mut rng);
        let bytes = day.draft().bytes();
        let sheet = codec.read(&bytes).expect("accepted");
        assert_eq!(every_placement::is_blocking(sheet, set), is_blocking(sheet, set), "{day:?}");
        blocking += usize::from(is_blocking(sheet, set));
    }
    assert!((500..1800).contains(&blocking), "{blocking}");
}

#[test]
fn lightest_placements() {
    let mut codec = Codec::default();
    let mut of = |day: &Day, benches: &[usize]| {
        let bytes = day.draft().bytes();
        let sheet = codec.read(&bytes).expect("accepted");
        let set = benches.iter().fold(Set::EMPTY, |all, &bench| all | Set::one(bench));
        (lightest_placement(sheet, set), weight_of_lightest(sheet, set))
    };
    // A chain of two jobs on three benches, one light job on benches 0 and 2, bench 2 booked.
    let jobs = [job(8, &[0, 1]), job(6, &[1, 2]), job(3, &[0, 2])];
    let chain = booked(head(3, 8), &[(2, 5)], &jobs);
    assert_eq!(of(&chain, &[0]), (Some(0), Some(0)));
    assert_eq!(of(&chain, &[0, 2]), (Some(6), Some(14)));
    assert_eq!(of(&chain, &[1, 2]), (Some(6), Some(11)));
    assert_eq!(of(&chain, &[0, 1, 2]), (Some(14), Some(22)));
    assert_eq!(of(&Day::new(head(2, 8), vec![job(8, &[0]); 2]), &[1]), (None, None));
}

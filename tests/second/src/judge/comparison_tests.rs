use super::comparison::{judge_comparison, judge_exchanged, Said};
use crate::codec::door::Codec;
use crate::codec::fault::Fault;
use crate::gen::lists;
use crate::planner::algorithm::{Comparison, Planner};
use crate::planner::example_tests::{booked, head, job};

const SAME: Said = Ok(Comparison::Same);
const DIFFERENT: Said = Ok(Comparison::Different);

fn fault(number: u32, place: usize) -> Said {
    Err(Fault::new(number, place))
}

/// Everything that can be said of a sheet of these tests.
fn all_said() -> [Said; 6] {
    [SAME, DIFFERENT, fault(13, 0), fault(13, 1), fault(13, 2), fault(2, 0)]
}

/// Jobs 0 and 1 are alike, job 2 is check-only; bench 1 is booked.
fn sheet() -> Vec<u8> {
    let jobs = [job(5, &[0, 1]), job(5, &[0, 1]), job(0, &[1, 2])];
    booked(head(3, 9), &[(1, 4)], &jobs).draft().bytes()
}

/// Nothing but this is taken for the comparison of two lists.
fn must_be(first: &[u64], second: &[u64], right: Said) {
    let (mut codec, bytes) = (Codec::default(), sheet());
    let read = codec.read(&bytes).expect("accepted");
    for said in all_said() {
        let judged = judge_comparison(Ok(read), [first, second], said);
        assert_eq!(judged.is_ok(), said == right, "{said:?} of {first:?} and {second:?}");
    }
}

#[test]
fn wrong_comparisons_are_refused() {
    must_be(&[0, 1, 1], &[0, 1, 1], SAME);
    // Equal loads: two jobs that are alike exchanged, and the check-only one elsewhere.
    must_be(&[0, 1, 1], &[1, 0, 1], DIFFERENT);
    must_be(&[0, 1, 1], &[0, 1, 2], DIFFERENT);
    must_be(&[0, 1, 1], &[1, 1, 1], DIFFERENT);
}

#[test]
fn wrong_faults_of_lists_are_refused() {
    let good: &[u64] = &[0, 1, 1];
    let bad: [&[u64]; 6] = [&[], &[0, 1], &[0, 1, 1, 1], &[0, 2, 1], &[0, 1, 64], &[0, 1 << 8, 1]];
    for bad in bad {
        must_be(bad, good, fault(13, 0));
        must_be(bad, bad, fault(13, 0));
        must_be(good, bad, fault(13, 1));
    }
}

#[test]
fn faults_of_the_sheet_come_first() {
    let cut = Fault::new(2, 0);
    for said in all_said() {
        for lists in [[&[][..], &[]], [&[0], &[0]], [&[0], &[1]]] {
            let judged = judge_comparison(Err(cut), lists, said);
            assert_eq!(judged.is_ok(), said == Err(cut), "{said:?} of {lists:?}");
        }
    }
}

#[test]
fn wrong_pairs_of_comparisons_are_refused() {
    let right = [
        (SAME, SAME),
        (DIFFERENT, DIFFERENT),
        (fault(13, 0), fault(13, 0)),
        (fault(13, 0), fault(13, 1)),
        (fault(13, 1), fault(13, 0)),
        (fault(2, 0), fault(2, 0)),
        (fault(2, 7), fault(2, 7)),
    ];
    let all = [SAME, DIFFERENT, fault(13, 0), fault(13, 1), fault(2, 0), fault(2, 7), fault(3, 0)];
    for said in all {
        for exchanged in all {
            let is_right =
                right.contains(&(said, exchanged)) || said == fault(3, 0) && said == exchanged;
            assert_eq!(
                judge_exchanged(said, exchanged).is_ok(),
                is_right,
                "{said:?} {exchanged:?}"
            );
        }
    }
}

/// Every pair of lists with 2 to 4 places, each of them a bench or none.
#[test]
fn the_second_planner_before_the_judge() {
    let (mut codec, mut planner, bytes) = (Codec::default(), Planner::new(), sheet());
    let all: Vec<Vec<u64>> = (2..=4).flat_map(|count| lists::all(count, 3)).collect();
    for first in &all {
        for second in &all {
            let said = planner.compare(&bytes, first, second);
            let read = codec.read(&bytes).map_err(|_| unreachable!("accepted"));
            let judged = judge_comparison(read, [first, second], said);
            assert_eq!(judged, Ok(()), "{first:?} and {second:?}");
        }
    }
}

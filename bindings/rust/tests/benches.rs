//! Sets of benches.

use yinqocha::{Bench, Benches};

fn of(numbers: &[u64]) -> Benches {
    Benches::of(numbers.iter().copied()).expect("the numbers are benches")
}

#[test]
fn a_set_is_shown_with_its_ranges() {
    let rows: [(&[u64], &str); 9] = [
        (&[], "none"),
        (&[0], "0"),
        (&[63], "63"),
        (&[0, 1], "0,1"),
        (&[0, 1, 2], "0-2"),
        (&[0, 2, 5, 6, 7], "0,2,5-7"),
        (&[0, 1, 3, 4, 5, 7, 62, 63], "0,1,3-5,7,62,63"),
        (&[61, 62, 63], "61-63"),
        (&[7, 5, 6, 6], "5-7"),
    ];
    for (numbers, text) in rows {
        assert_eq!(of(numbers).to_string(), text);
    }
    assert_eq!(Benches::first(64).to_string(), "0-63");
    assert_eq!(format!("{:?}", of(&[0, 1, 2])), "Benches(0-2)");
}

#[test]
fn the_bit_of_a_bench_is_that_of_the_door() {
    for number in 0..64 {
        let bench = Bench::new(number).expect("a bench");
        let set = Benches::from(bench);
        assert_eq!(set.bits(), 1 << (63 - number));
        assert_eq!((set.len(), set.iter().collect::<Vec<_>>()), (1, vec![bench]));
        assert_eq!((u64::from(bench), usize::from(bench)), (number, number as usize));
        assert!(!Benches::first(number).contains(bench));
        assert!(Benches::first(number + 1).contains(bench));
        assert_eq!(Benches::first(number).len(), number as usize);
    }
    for number in [64, 65, 128, 256, 1 << 32, u64::MAX] {
        assert_eq!(Bench::new(number), None);
        assert_eq!(Benches::of([number]), None);
        assert_eq!(Benches::first(number), Benches::from_bits(u64::MAX));
    }
}

#[test]
fn benches_go_in_and_out() {
    let [two, three] = [2, 3].map(|number| Bench::new(number).expect("a bench"));
    let mut set = Benches::EMPTY;
    assert!(set.insert(two) && !set.insert(two));
    set.extend([two, three]);
    assert_eq!((set, set.len()), (of(&[2, 3]), 2));
    assert!(set.remove(two) && !set.remove(two));
    assert_eq!(set | Benches::from(two), of(&[2, 3]));
    assert_eq!(set.into_iter().collect::<Benches>(), set);
    let mut left = of(&[0, 63]).iter();
    assert_eq!(left.len(), 2);
    assert_eq!(left.by_ref().map(Bench::number).collect::<Vec<_>>(), [0, 63]);
    assert_eq!((left.len(), left.next()), (0, None));
}

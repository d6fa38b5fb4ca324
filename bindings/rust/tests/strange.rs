//! A library that answers what none should: the crate says so and does not panic. The functions of
//! the C door are in this test itself, so that none of an archive is linked.

use std::sync::atomic::{AtomicU64, Ordering};
use std::sync::Mutex;
use yinqocha::{Benches, Call, Fault, Head, PageCheck, Refusal, SetCheck, Share, Sheet};

/// The result word of every function, and the byte with which it fills tables.
static WORD: AtomicU64 = AtomicU64::new(0);
static BYTE: AtomicU64 = AtomicU64::new(0);
/// Held by the test that has chosen them.
static CHOICE: Mutex<()> = Mutex::new(());

/// The functions of the C door: the types of what each reads, and the tables that it fills.
macro_rules! strange {
    ($($name:ident($($read:ty),*; $($table:ident $len:ident),*))*) => {
        $(#[no_mangle]
        unsafe extern "C" fn $name($(_: $read,)* $($table: *mut u8, $len: usize),*) -> u64 {
            // SAFETY: a pointer and its length are those of a buffer that the caller lends.
            $(unsafe { $table.write_bytes(BYTE.load(Ordering::SeqCst) as u8, $len) };)*
            WORD.load(Ordering::SeqCst)
        })*
    };
}

strange! {
    yinqocha_write(
        u64, u64, u64, u64, *const u8, usize, *const u8, usize, *const u8, usize; out out_len
    )
    yinqocha_read(*const u8, usize; contents contents_len)
    yinqocha_plan(*const u8, usize; places places_len, loads loads_len, answer answer_len)
    yinqocha_best(*const u8, usize; places places_len, loads loads_len, answer answer_len)
    yinqocha_compare(*const u8, usize, *const u8, usize, *const u8, usize;)
    yinqocha_check_plan(*const u8, usize, *const u8, usize; answer answer_len)
    yinqocha_check_set(*const u8, usize, u64; answer answer_len)
    yinqocha_check_page(*const u8, usize, *const u8, usize; answer answer_len)
}

/// Asks everything of a sheet that says nonsense, with this word and this byte.
fn asked<T>(word: u64, byte: u8, ask: impl Fn(&Sheet) -> T) -> T {
    let _choice = CHOICE.lock().unwrap_or_else(|poisoned| poisoned.into_inner());
    WORD.store(u64::from(u32::MAX), Ordering::SeqCst);
    let head = Head { benches: u64::MAX, share: Share { p: 0, q: 0 }, target: 0 };
    let sheet = Sheet::write(head, &[9; 100], &[]).expect("no fault");
    assert_eq!(sheet.as_bytes().len(), yinqocha::MAX_WRITTEN_BYTES);
    WORD.store(word, Ordering::SeqCst);
    BYTE.store(u64::from(byte), Ordering::SeqCst);
    ask(&sheet)
}

/// The fault of each call, in the order of `CALLS`.
fn faults(sheet: &Sheet) -> [Option<Fault>; 7] {
    [
        Sheet::read(&[]).err(),
        sheet.plan().err(),
        sheet.best().err(),
        sheet.compare(&[0_u8; 1000], &[0_u8]).err(),
        sheet.check_plan(&[0_u8; 1000]).err(),
        sheet.check_set(Benches::EMPTY).err(),
        sheet.check_page(&[Benches::EMPTY; 100]).err(),
    ]
}

const CALLS: [Call; 7] = [
    Call::Read,
    Call::Plan,
    Call::Best,
    Call::Compare,
    Call::CheckPlan,
    Call::CheckSet,
    Call::CheckPage,
];

#[test]
fn an_answer_that_is_not_known_is_a_fault() {
    for value in [513, 1000, u32::MAX] {
        let faults = asked(u64::from(value), 0, faults);
        for (call, fault) in CALLS.into_iter().zip(faults) {
            let fault = fault.expect("a fault");
            let said = (fault.call(), fault.number(), fault.place());
            assert_eq!(said, (call, Fault::UNKNOWN_ANSWER, value));
            let words = format!("the library gave an answer that is not known, {value}");
            assert_eq!(fault.to_string(), words);
        }
    }
}

#[test]
fn a_fault_that_is_not_known_keeps_its_number() {
    for number in [19, 99] {
        for (call, fault) in CALLS.into_iter().zip(asked(number << 32 | 5, 0, faults)) {
            let fault = fault.expect("a fault");
            let said = (fault.call(), u64::from(fault.number()), fault.place());
            assert_eq!(said, (call, number, 5));
            let words = format!("the library gave a fault that is not known, {number} at 5");
            assert_eq!(fault.to_string(), words);
        }
    }
}

/// 1 is a plan, a best target, and a list that passes: with places and benches of 64 and above.
#[test]
fn a_place_that_is_no_bench_is_not_known() {
    let numbers = asked(1, 0xFF, |sheet| faults(sheet).map(|fault| fault.map(Fault::number)));
    let unknown = Some(Fault::UNKNOWN_ANSWER);
    assert_eq!(numbers[1..], [unknown, unknown, None, unknown, None, None]);
}

#[test]
fn a_number_of_any_size_is_told() {
    let (job, set) = (usize::MAX, usize::MAX);
    asked(2, 0xFF, |sheet| {
        assert_eq!(sheet.plan(), Ok(Err(Refusal::Long { job })));
        assert_eq!(sheet.check_set(Benches::EMPTY), Ok(SetCheck::Long { job }));
        assert_eq!(sheet.check_page(&[]), Ok(PageCheck::Long { job }));
    });
    asked(0, 0xFF, |sheet| {
        assert_eq!(sheet.check_page(&[]), Ok(PageCheck::NotPassed { set }));
    });
    let plan = asked(1, 0, |sheet| sheet.plan()).expect("no fault").expect("a plan");
    assert_eq!((plan.places().len(), plan.loads().len()), (0, yinqocha::MAX_BENCHES));
}

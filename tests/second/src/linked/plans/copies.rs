//! What planning a full sheet copies: the calls of memcpy and memmove that the static library makes,
//! counted by size. The linker leads both to the two functions here (build.rs).
//!
//! A turn of the run, an exploration and a push, may copy the loads of the benches with which the
//! exploration begins, and nothing else: no list of jobs, no places, no choices. Fails where one
//! copies more. What the compiler copies without a call, parts of structs, is not counted.

// Only planning.
#[allow(dead_code)]
mod library;

use second::corpus::SLOW;
use second::lent::empty::Empty;
use second::lent::tables::Tables;
use second::light_days;
use second::planner::algorithm::Planner;
use second::planner::door::{self, ANSWER_ENTRIES};
use std::process::ExitCode;
use std::sync::atomic::{AtomicBool, AtomicU64, Ordering::Relaxed};

/// Sizes from here on count as this one.
const LARGEST: usize = 16_384;
/// The own loads of 64 benches, 8 bytes each.
const MOST_BYTES: u64 = 512;
/// From so many explorations on, what a turn copies shows beside what is copied once a plan.
const MANY: u64 = 100;

static COUNTING: AtomicBool = AtomicBool::new(false);
static CALLS: [AtomicU64; LARGEST + 1] = [const { AtomicU64::new(0) }; LARGEST + 1];

fn count(bytes: usize) {
    if COUNTING.load(Relaxed) {
        CALLS[bytes.min(LARGEST)].fetch_add(1, Relaxed);
    }
}

extern "C" {
    fn __real_memcpy(to: *mut u8, from: *const u8, bytes: usize) -> *mut u8;
    fn __real_memmove(to: *mut u8, from: *const u8, bytes: usize) -> *mut u8;
}

/// # Safety
/// That of memcpy.
#[no_mangle]
pub unsafe extern "C" fn __wrap_memcpy(to: *mut u8, from: *const u8, bytes: usize) -> *mut u8 {
    count(bytes);
    // SAFETY: the caller's.
    unsafe { __real_memcpy(to, from, bytes) }
}

/// # Safety
/// That of memmove.
#[no_mangle]
pub unsafe extern "C" fn __wrap_memmove(to: *mut u8, from: *const u8, bytes: usize) -> *mut u8 {
    count(bytes);
    // SAFETY: the caller's.
    unsafe { __real_memmove(to, from, bytes) }
}

/// The sizes that were copied while a sheet was planned, each with its calls.
fn copies(sheet: &[u8], tables: &mut Tables<ANSWER_ENTRIES>) -> Option<Vec<(u64, u64)>> {
    let tables = tables.all();
    COUNTING.store(true, Relaxed);
    let word = library::plan(sheet, tables, Empty::Pointer);
    COUNTING.store(false, Relaxed);
    let taken = CALLS.iter().map(|calls| calls.swap(0, Relaxed));
    let sizes = taken.enumerate().filter(|&(bytes, calls)| bytes > 0 && calls > 0);
    word.map(|_| sizes.map(|(bytes, calls)| (bytes as u64, calls)).collect())
}

/// Each size that a turn copies, with its calls. Those of the whole plan are few beside them.
fn of_a_turn(copies: &[(u64, u64)], explorations: u64) -> Vec<(u64, u64)> {
    let rounded = |calls: u64| (calls + explorations / 2) / explorations;
    let each = copies.iter().map(|&(bytes, calls)| (bytes, rounded(calls)));
    each.filter(|&(_, calls)| calls > 0).collect()
}

fn bytes_of(copies: &[(u64, u64)]) -> u64 {
    copies.iter().map(|&(bytes, calls)| bytes * calls).sum()
}

/// Prints a sheet's line; false where a turn copies too much, and nothing without the library.
fn print(planner: &mut Planner, name: &str, sheet: &[u8]) -> Option<bool> {
    let (mut found, mut expected) = (Tables::new(), Tables::new());
    let copies = copies(sheet, &mut found)?;
    assert!(!copies.is_empty(), "{name}: no copy was counted, so none leads here");
    let [places, loads, answer] = expected.all();
    door::plan(planner, sheet, places, loads, answer);
    let [moves, wanted] =
        [&found, &expected].map(|tables: &Tables<ANSWER_ENTRIES>| tables.answer()[1]);
    assert_eq!(moves, wanted, "{name}: the moves differ");
    let (explorations, rounds) = (moves + 1, planner.counts().explored.rounds);
    print!("{name:<24} {explorations:>12} {rounds:>8} {:>12}", bytes_of(&copies));
    if explorations < MANY {
        println!(" {:>6}", "-");
        return Some(true);
    }
    let turn = of_a_turn(&copies, explorations);
    print!(" {:>6}", bytes_of(&turn));
    let sizes: Vec<String> =
        turn.iter().map(|(bytes, calls)| format!("{calls} x {bytes}")).collect();
    println!("  {}", sizes.join(", "));
    Some(bytes_of(&turn) <= MOST_BYTES)
}

fn main() -> ExitCode {
    println!("bytes copied: those of a plan, and those of a turn by the size of the copies");
    println!("{:<24} {:>12} {:>8} {:>12} {:>6}", "", "explorations", "rounds", "plan", "turn");
    let slow = SLOW.map(|(name, sheet)| (name, sheet.to_vec()));
    let light = light_days::all().into_iter().map(|(name, day)| (name, day.draft().bytes()));
    let mut planner = Planner::new();
    let (mut sheets, mut too_much) = (0, 0);
    for (name, sheet) in slow.into_iter().chain(light) {
        let Some(within) = print(&mut planner, name, &sheet) else {
            eprintln!("copies: the library is not linked");
            return ExitCode::from(2);
        };
        sheets += 1;
        too_much += usize::from(!within);
    }
    if too_much > 0 {
        println!("copies: FAILED, a turn copies more than {MOST_BYTES} bytes on {too_much} sheets");
        return ExitCode::FAILURE;
    }
    println!("copies: a turn copies {MOST_BYTES} bytes at most, on {sheets} sheets");
    ExitCode::SUCCESS
}

//! Times of the library beside those of the second codec, on full sheets: 64 benches, 512 jobs, and
//! the same with every bench booked.
//! Both are built for release and read and write the same bytes in the same run, in turns. No
//! buffer is cleared between calls.

mod library;

use second::codec::door::{table_bytes, Codec};
use second::codec::sheet::{Head, Job, MAX_JOBS};
use second::gen::day::{few_benches, many_benches, Day};
use second::gen::tables::Tables;
use second::lent::empty::Empty;
use second::rng::Rng;
use std::hint::black_box;
use std::time::Instant;

const SAMPLES: usize = 2000;
const CALLS: usize = 20;

/// A function that reads a sheet into a table.
type Read = fn(&[u8], &mut [u8], Empty) -> u64;

/// Nanoseconds of one call.
struct Times {
    best: f64,
    median: f64,
}

fn full_day() -> Day {
    let mut rng = Rng::new(1);
    let head = Head { benches: 64, p: 4, q: 7, target: 480 };
    let job = |job| match job % 2 {
        0 => Job { minutes: rng.range(1, 210), allowed: few_benches(&mut rng, 64) },
        _ => Job { minutes: rng.range(1, 120), allowed: many_benches(&mut rng, 64) },
    };
    let mut jobs: Vec<Job> = (0..MAX_JOBS).map(job).collect();
    jobs[0].minutes = 210;
    Day::new(head, jobs)
}

fn sample(call: &mut dyn FnMut() -> u64) -> f64 {
    let start = Instant::now();
    for _ in 0..CALLS {
        black_box(call());
    }
    start.elapsed().as_nanos() as f64 / CALLS as f64
}

fn times(mut samples: Vec<f64>) -> Times {
    samples.sort_by(f64::total_cmp);
    Times { best: samples[0], median: samples[samples.len() / 2] }
}

/// Samples of both calls in turns.
fn measure(library: &mut dyn FnMut() -> u64, second: &mut dyn FnMut() -> u64) -> [Times; 2] {
    let mut samples = [Vec::new(), Vec::new()];
    for _ in 0..SAMPLES {
        samples[0].push(sample(library));
        samples[1].push(sample(second));
    }
    samples.map(times)
}

fn print(what: &str, [library, second]: [Times; 2]) {
    let row = |name: &str, library: f64, second: f64| {
        let ratio = library / second;
        println!("{what:<8} {name:<7} {library:>10.0} ns {second:>10.0} ns {ratio:>8.2}");
    };
    row("best", library.best, second.best);
    row("median", library.median, second.median);
}

/// Reading a sheet by a function of a library, and by the second codec.
fn reading(read: Read, sheet: &[u8]) -> [Times; 2] {
    let mut codec = Codec::default();
    let mut tables = [vec![1; table_bytes(MAX_JOBS)], vec![2; table_bytes(MAX_JOBS)]];
    let [found, expected] = &mut tables;
    let mut library = || read(black_box(sheet), black_box(found), Empty::Pointer);
    let mut second = || codec.read_contents(black_box(sheet), black_box(expected));
    let times = measure(&mut library, &mut second);
    assert_eq!(tables[0], tables[1], "the tables differ");
    times
}

fn print_day(day: &Day) {
    let sheet = day.draft().bytes();
    let Tables { head, booked, minutes, allowed } = &day.tables();
    let mut codec = Codec::default();

    let read = reading(library::read, &sheet);
    let inspected = reading(library::inspect, &sheet);

    let mut outputs = [1, 2].map(|byte| vec![byte; sheet.len()]);
    let [found, expected] = &mut outputs;
    let tables = [&booked[..], minutes, allowed];
    let writing = measure(
        &mut || library::write(*head, tables, black_box(found), Empty::Pointer),
        &mut || codec.write(*head, booked, minutes, allowed, black_box(expected)),
    );
    assert_eq!(outputs[0], sheet, "the library's sheet differs");
    assert_eq!(outputs[1], sheet, "the second codec's sheet differs");

    let bookings = day.tables().bookings();
    println!("64 benches, {bookings} bookings, {MAX_JOBS} jobs, {} bytes", sheet.len());
    print("reading", read);
    print("inspect", inspected);
    print("writing", writing);
}

fn main() {
    println!("full sheets");
    println!("{SAMPLES} samples of {CALLS} calls each, buffers not cleared between calls");
    println!("{:<16} {:>13} {:>13} {:>8}", "", "library", "second", "ratio");
    let day = full_day();
    print_day(&day);
    print_day(&Day { booked: [30; 64], ..day });
}

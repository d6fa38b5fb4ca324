//! What the tally counts of a call besides its fault number.

use second::codec::door::{fault_number, minutes_of, numbers, FRONT_ENTRIES};
use second::codec::fault::MINUTES;
use second::gen::tables::Tables;

pub const BOOKED: &str = "taken, with bookings";
pub const CHECK_ONLY: &str = "taken, with check-only jobs";
pub const ALL_CHECK_ONLY: &str = "taken, with no other jobs";
pub const NO_MINUTES: &str = "10, minutes are not there";
pub const BEGUN_MINUTES: &str = "10, minutes begun with 0";
pub const WIDE_MINUTES: &str = "10, minutes too wide";

/// Of a table that was filled, none where it was not.
pub fn of_reading(table: &[u8]) -> Vec<&'static str> {
    let bookings = numbers(table).take(FRONT_ENTRIES).skip(4);
    taken(bookings, numbers(table).skip(FRONT_ENTRIES).step_by(2))
}

pub fn of_writing(word: u64, tables: &Tables) -> Vec<&'static str> {
    let minutes = &tables.minutes;
    match fault_number(word) {
        0 => taken(numbers(&tables.booked), numbers(minutes)),
        MINUTES => {
            let job = word as u32 as usize;
            vec![match minutes_of(minutes, job) {
                Some(_) => WIDE_MINUTES,
                None if 8 * job < minutes.len() => BEGUN_MINUTES,
                None => NO_MINUTES,
            }]
        }
        _ => Vec::new(),
    }
}

fn taken(
    mut booked: impl Iterator<Item = u64>,
    minutes: impl Iterator<Item = u64>,
) -> Vec<&'static str> {
    let minutes: Vec<u64> = minutes.collect();
    let zeros = minutes.iter().filter(|&&minutes| minutes == 0).count();
    let all = [
        (booked.any(|minutes| minutes > 0), BOOKED),
        (zeros > 0, CHECK_ONLY),
        (zeros > 0 && zeros == minutes.len(), ALL_CHECK_ONLY),
    ];
    all.into_iter().filter(|&(holds, _)| holds).map(|(_, kind)| kind).collect()
}

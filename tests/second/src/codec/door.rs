//! Reading and writing as the static library offers them: fields in tables of 8-byte numbers,
//! least significant byte first, and the answer in one result word.

use super::fault::{self, Fault};
use super::reader;
use super::sheet::{Given, Head, Sheet, MAX_BENCHES};
use super::writer;

pub const ENTRY_BYTES: usize = 8;

/// The entries of a table of contents before those of the jobs: the head's four fields and the
/// booked minutes of each of 64 benches.
pub const FRONT_ENTRIES: usize = 4 + MAX_BENCHES as usize;

/// The bytes of that table: two more entries for each job.
pub fn table_bytes(jobs: usize) -> usize {
    ENTRY_BYTES * (FRONT_ENTRIES + 2 * jobs)
}

/// The result word: a value in the low half, or a fault's number in the high half and its place
/// in the low half.
pub fn word(answer: Result<usize, Fault>) -> u64 {
    match answer {
        Ok(value) => value as u64,
        Err(fault) => u64::from(fault.number) << 32 | fault.place as u64,
    }
}

/// The fault number of a result word, 0 for none.
pub fn fault_number(word: u64) -> u32 {
    (word >> 32) as u32
}

/// The entries of a table, a begun one counting as one.
pub fn entries(table: &[u8]) -> usize {
    table.len().div_ceil(ENTRY_BYTES)
}

/// Entry `index` of a table; bytes that the table lacks count as 0.
pub fn entry(table: &[u8], index: usize) -> u64 {
    let rest = table.get(ENTRY_BYTES * index..).unwrap_or(&[]);
    match rest.first_chunk() {
        Some(whole) => u64::from_le_bytes(*whole),
        None => rest.iter().rev().fold(0, |value, &byte| value << 8 | u64::from(byte)),
    }
}

/// The numbers of a table, a begun entry counting as one.
pub fn numbers(table: &[u8]) -> impl ExactSizeIterator<Item = u64> + Clone + '_ {
    (0..entries(table)).map(|index| entry(table, index))
}

/// The minutes of a job: 0 only where all bytes of the entry are there and are 0. A table that ends
/// before the entry, or inside it with no byte above 0, has no minutes for the job.
pub fn minutes_of(table: &[u8], job: usize) -> Option<u64> {
    let is_whole = job < table.len() / ENTRY_BYTES;
    Some(entry(table, job)).filter(|&minutes| is_whole || minutes > 0)
}

/// The jobs of a pair of tables; their number is that of the longer table.
pub fn jobs<'a>(minutes: &'a [u8], allowed: &'a [u8]) -> impl Iterator<Item = Given> + 'a {
    let count = entries(minutes).max(entries(allowed));
    (0..count).map(|job| Given { minutes: minutes_of(minutes, job), allowed: entry(allowed, job) })
}

/// The codec with a sheet to work in, so that a call takes nothing from the heap.
#[derive(Default)]
pub struct Codec {
    sheet: Sheet,
}

impl Codec {
    pub fn read(&mut self, bytes: &[u8]) -> Result<&Sheet, Fault> {
        reader::read(bytes, &mut self.sheet)?;
        Ok(&self.sheet)
    }

    /// Reads a sheet into a table of contents: benches, p, q, target, then the booked minutes of
    /// each of 64 benches, then each job's minutes and benches allowed. Later bytes keep their
    /// contents, and after a fault all do.
    pub fn read_contents(&mut self, bytes: &[u8], table: &mut [u8]) -> u64 {
        word(self.contents(bytes, table))
    }

    fn contents(&mut self, bytes: &[u8], table: &mut [u8]) -> Result<usize, Fault> {
        let sheet = self.read(bytes)?;
        let jobs = sheet.jobs();
        if table.len() < table_bytes(jobs.len()) {
            return Err(Fault::new(fault::NO_ROOM, 0));
        }
        let Head { benches, p, q, target } = sheet.head();
        let (front, rest) = table.split_at_mut(table_bytes(0));
        put_entries(front, [benches, p, q, target]);
        put_entries(&mut front[4 * ENTRY_BYTES..], *sheet.booked());
        for (row, job) in rest.chunks_exact_mut(2 * ENTRY_BYTES).zip(jobs) {
            put_entries(row, [job.minutes, job.allowed]);
        }
        Ok(jobs.len())
    }

    /// Writes the sheet of a head, a table of bookings and a pair of tables for the jobs. Entry b
    /// of `booked` is bench b's number; one that the table lacks is 0.
    pub fn write(
        &mut self,
        head: Head,
        booked: &[u8],
        minutes: &[u8],
        allowed: &[u8],
        out: &mut [u8],
    ) -> u64 {
        let (booked, jobs) = (numbers(booked), jobs(minutes, allowed));
        word(writer::write(head, booked, jobs, &mut self.sheet, out))
    }
}

fn put_entries<const N: usize>(row: &mut [u8], values: [u64; N]) {
    for (entry, value) in row.chunks_exact_mut(ENTRY_BYTES).zip(values) {
        entry.copy_from_slice(&value.to_le_bytes());
    }
}

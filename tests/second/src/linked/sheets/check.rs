//! One sheet through the library and through the second codec, compared byte by byte. The first
//! difference ends the run.

use crate::kinds;
use crate::library;
use crate::tally::Tally;
use second::codec::door::{entry, fault_number, table_bytes, Codec};
use second::codec::fault::MINUTES;
use second::codec::sheet::{MAX_BENCHES, MAX_JOBS};
use second::codec::writer::sheet_bytes;
use second::gen::tables::Tables;
use second::hex;
use second::lent::empty::Empty;
use second::lent::guarded::Guarded;
use second::rng::Rng;
use std::process;

pub struct Check {
    pub rng: Rng,
    pub tally: Tally,
    codec: Codec,
    seed: u64,
    class: &'static str,
}

/// What reading gave: the result word, and of the table what was filled.
#[derive(Debug, PartialEq, Eq)]
pub struct Reading {
    pub word: u64,
    pub table: Vec<u8>,
}

/// What writing gave: the result word and the sheet.
#[derive(Debug, PartialEq, Eq)]
pub struct Writing {
    pub word: u64,
    pub sheet: Vec<u8>,
}

fn words(word: u64) -> String {
    match fault_number(word) {
        0 => format!("accepted, value {word}"),
        number => format!("fault {number}, place {}", word as u32),
    }
}

impl Check {
    pub fn new(seed: u64) -> Check {
        let rng = Rng::new(seed);
        Check { rng, tally: Tally::default(), codec: Codec::default(), seed, class: "" }
    }

    /// The class that the next sheets belong to.
    pub fn class(&mut self, class: &'static str) {
        self.class = class;
    }

    /// Reads a sheet, with a table that has room for it; with any table where it has a fault.
    pub fn read(&mut self, sheet: &[u8]) -> Reading {
        let need = match self.codec.read(sheet) {
            Ok(sheet) => table_bytes(sheet.jobs().len()),
            Err(_) => self.rng.pick(&[0, 0, 0, 0, 100, 200, 1000, table_bytes(MAX_JOBS)]),
        };
        let room = need + self.rng.below(40);
        self.read_into(sheet, room)
    }

    /// Reads a sheet, with a table of `room` bytes.
    pub fn read_into(&mut self, sheet: &[u8], room: usize) -> Reading {
        let input = Guarded::holding(&mut self.rng, sheet);
        let lent = input.clone();
        let before = Guarded::random(&mut self.rng, room);
        let [mut expected, mut found, mut shown] = [before.clone(), before.clone(), before.clone()];
        let empty = self.rng.pick(&[Empty::Null, Empty::Pointer]);
        let second = self.codec.read_contents(sheet, expected.inside_mut());
        let library = library::read(lent.inside(), found.inside_mut(), empty);
        let inspected = library::inspect(lent.inside(), shown.inside_mut(), empty);
        let call = || format!("reading, a table of {room} bytes\nsheet {}", hex::print(sheet));
        self.same_word(library, second, call);
        self.same_bytes("the table", &found, &expected, call);
        self.same_word(inspected, second, || format!("by inspect, {}", call()));
        self.same_bytes("the table of inspect", &shown, &expected, call);
        self.same_bytes("the sheet lent to the library", &lent, &input, call);
        let fault = fault_number(library);
        self.expect("no sheet meets fault 10", fault != MINUTES, || hex::print(sheet));
        if fault != 0 {
            self.same_bytes("the table after a fault", &found, &before, call);
        }
        let filled = if fault == 0 { table_bytes(library as usize) } else { 0 };
        let table = found.inside()[..filled].to_vec();
        self.tally.count_read(self.class, library, &kinds::of_reading(&table));
        Reading { word: library, table }
    }

    /// Writes a sheet, with an output that has room for it.
    pub fn write(&mut self, tables: &Tables) -> Writing {
        let bookings = tables.bookings().min(MAX_BENCHES as usize);
        let need = sheet_bytes(bookings, tables.count().min(MAX_JOBS));
        let room = need + self.rng.below(40);
        self.write_into(tables, room)
    }

    /// Writes a sheet, with an output of `room` bytes, and reads what was written.
    pub fn write_into(&mut self, tables: &Tables, room: usize) -> Writing {
        let Tables { head, booked, minutes, allowed } = tables;
        let inputs = [booked, minutes, allowed].map(|table| Guarded::holding(&mut self.rng, table));
        let lent = inputs.clone();
        let before = Guarded::random(&mut self.rng, room);
        let [mut expected, mut found] = [before.clone(), before.clone()];
        let empty = self.rng.pick(&[Empty::Null, Empty::Pointer]);
        let second = self.codec.write(*head, booked, minutes, allowed, expected.inside_mut());
        let out = found.inside_mut();
        let library = library::write(*head, lent.each_ref().map(Guarded::inside), out, empty);
        let call = || {
            let [booked, minutes, allowed] = [booked, minutes, allowed].map(|of| hex::print(of));
            format!(
                "writing, an output of {room} bytes\n{head:?}\nbooked {booked}\nminutes {minutes}\n\
                 allowed {allowed}\nexpected output {}",
                hex::print(expected.inside())
            )
        };
        self.same_word(library, second, call);
        self.same_bytes("the output", &found, &expected, call);
        for (lent, input) in lent.iter().zip(&inputs) {
            self.same_bytes("a table lent to the library", lent, input, call);
        }
        self.tally.count_written(self.class, library, &kinds::of_writing(library, tables));
        if fault_number(library) != 0 {
            self.same_bytes("the output after a fault", &found, &before, call);
            return Writing { word: library, sheet: Vec::new() };
        }
        let sheet = found.inside()[..library as usize].to_vec();
        self.read_back(tables, &sheet);
        Writing { word: library, sheet }
    }

    /// What was written is read as the fields that were given.
    fn read_back(&mut self, tables: &Tables, sheet: &[u8]) {
        let head = tables.head;
        let mut fields = vec![head.benches, head.p, head.q, head.target];
        fields.extend((0..MAX_BENCHES as usize).map(|bench| entry(&tables.booked, bench)));
        for job in 0..tables.count() {
            fields.extend([entry(&tables.minutes, job), entry(&tables.allowed, job)]);
        }
        let table = fields.into_iter().flat_map(u64::to_le_bytes).collect();
        let reading = self.read(sheet);
        let given = Reading { word: tables.count() as u64, table };
        self.expect("what was written is read", reading == given, || hex::print(sheet));
    }

    fn same_word(&self, library: u64, second: u64, call: impl Fn() -> String) {
        if library != second {
            let (library, second) = (words(library), words(second));
            self.fail(&format!("library: {library}\nsecond codec: {second}\n{}", call()));
        }
    }

    fn same_bytes(
        &self,
        what: &str,
        found: &Guarded,
        expected: &Guarded,
        call: impl Fn() -> String,
    ) {
        if let Some(at) = found.first_difference(expected) {
            self.fail(&format!("{what} differs first at byte {at}\n{}", call()));
        }
    }

    /// A law or a fixed case, of which `detail` has the sheet.
    pub fn expect(&self, what: &str, holds: bool, detail: impl Fn() -> String) {
        if !holds {
            self.fail(&format!("{what}: not so\nsheet {}", detail()));
        }
    }

    fn fail(&self, report: &str) -> ! {
        self.tally.print();
        println!("sheets: FAILED, class \"{}\", seed {}\n{report}", self.class, self.seed);
        process::exit(1)
    }
}

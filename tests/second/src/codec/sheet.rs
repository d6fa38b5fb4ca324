//! Head, bookings, job and sheet, and the tests 7 to 12 and 14, which reader and writer share: "The
//! writer refuses by the same tests 7 to 12 in the same order".
//!
//! Fields are 64-bit numbers, so that a writer's caller can give ones that are too wide. What the
//! reader takes from a sheet is never too wide, so those parts of a test are the writer's alone.

use super::fault::{self, Fault};

pub const MAX_BENCHES: u64 = 64;
pub const MAX_JOBS: usize = 512;

/// "benches (7 bits, 1 to 64), p (7), q (7), target T (30)"
#[derive(Clone, Copy, Debug, Default, PartialEq, Eq)]
pub struct Head {
    pub benches: u64,
    pub p: u64,
    pub q: u64,
    pub target: u64,
}

/// The booked minutes of each of 64 benches: "A booking of 0 is the same as none".
pub type Booked = [u64; MAX_BENCHES as usize];

pub const NOTHING_BOOKED: Booked = [0; MAX_BENCHES as usize];

/// "minutes (20, 1 to 1,048,575), benches allowed (64, the first bit is bench 0)"; "jobs of 0
/// minutes are taken", the check-only ones.
#[derive(Clone, Copy, Debug, Default, PartialEq, Eq)]
pub struct Job {
    pub minutes: u64,
    pub allowed: u64,
}

impl Job {
    pub fn allows(&self, bench: u64) -> bool {
        self.allowed >> (63 - bench) & 1 == 1
    }
}

/// A job to be taken. Its minutes are none where the writer's table of minutes has no entry for it:
/// no minutes are not 0 minutes.
#[derive(Clone, Copy, Debug, PartialEq, Eq)]
pub struct Given {
    pub minutes: Option<u64>,
    pub allowed: u64,
}

impl From<Job> for Given {
    fn from(Job { minutes, allowed }: Job) -> Given {
        Given { minutes: Some(minutes), allowed }
    }
}

fn fits(value: u64, width: u32) -> bool {
    value >> width == 0
}

/// The benches a head with this many has, in the form of a job's field.
pub fn first_benches(benches: u64) -> u64 {
    (0..benches).map(|bench| 1 << (63 - bench)).sum()
}

/// A sheet that is read or to be written: "0 to 512" jobs, "numbered in sheet order".
#[derive(Clone)]
pub struct Sheet {
    head: Head,
    benches: u64,
    booked: Booked,
    /// The benches that had a booking frame, also one of 0 minutes.
    had_booking: [bool; MAX_BENCHES as usize],
    jobs: [Job; MAX_JOBS],
    count: usize,
}

impl Sheet {
    pub fn new() -> Sheet {
        Sheet {
            head: Head::default(),
            benches: 0,
            booked: NOTHING_BOOKED,
            had_booking: [false; MAX_BENCHES as usize],
            jobs: [Job::default(); MAX_JOBS],
            count: 0,
        }
    }

    pub fn head(&self) -> Head {
        self.head
    }

    pub fn booked(&self) -> &Booked {
        &self.booked
    }

    pub fn jobs(&self) -> &[Job] {
        &self.jobs[..self.count]
    }

    /// The same sheet with another target.
    pub fn with_target(&self, target: u64) -> Sheet {
        let mut sheet = self.clone();
        sheet.head.target = target;
        sheet
    }

    /// Takes the head, with no booking and no job yet, or gives the number of its fault: tests 7
    /// and 8.
    pub fn set_head(&mut self, head: Head) -> Result<(), u32> {
        // "The head has 0 benches or more than 64." Too wide a target counts here.
        if head.benches == 0 || head.benches > MAX_BENCHES || !fits(head.target, 30) {
            return Err(fault::BENCHES);
        }
        // Too wide a p or q counts under 8.
        if !fits(head.p, 7) || !fits(head.q, 7) {
            return Err(fault::SHARE);
        }
        // "The share is bad: q is 0, or 7p < 4q, or p ≥ q."
        if head.q == 0 || 7 * head.p < 4 * head.q || head.p >= head.q {
            return Err(fault::SHARE);
        }
        self.head = head;
        self.benches = first_benches(head.benches);
        self.booked = NOTHING_BOOKED;
        self.had_booking = [false; MAX_BENCHES as usize];
        self.count = 0;
        Ok(())
    }

    /// Takes the booking of a bench, or gives the number of its fault: tests 14 and 15.
    pub fn add_booking(&mut self, bench: u64, minutes: u64) -> Result<(), u32> {
        // "the bench is not in the head or, from the writer, [...] the minutes are too wide for
        // the field".
        if bench >= self.head.benches || !fits(minutes, 20) {
            return Err(fault::BOOKING);
        }
        // "the bench already had a booking frame".
        let bench = bench as usize;
        if self.had_booking[bench] {
            return Err(fault::BOOKED_TWICE);
        }
        self.had_booking[bench] = true;
        self.booked[bench] = minutes;
        Ok(())
    }

    /// Takes the next job, or gives the number of its fault: tests 9 to 11.
    pub fn add_job(&mut self, job: Given) -> Result<(), u32> {
        // "It is the 513th job."
        if self.count == MAX_JOBS {
            return Err(fault::TOO_MANY_JOBS);
        }
        // "the writer keeps it for minutes too wide for the field"; the reader never meets it.
        let Some(minutes) = job.minutes.filter(|&minutes| fits(minutes, 20)) else {
            return Err(fault::MINUTES);
        };
        // "A job allows no bench, or a bench the head lacks."
        if job.allowed == 0 || job.allowed & !self.benches != 0 {
            return Err(fault::ALLOWED);
        }
        self.jobs[self.count] = Job { minutes, allowed: job.allowed };
        self.count += 1;
        Ok(())
    }

    /// Test 12: "a job allows three or more benches and q × minutes > p × W, with W the longest
    /// job's minutes (place: the lowest such job number)".
    pub fn whole(&self) -> Result<(), Fault> {
        let Head { p, q, .. } = self.head;
        let longest = self.jobs().iter().map(|job| job.minutes).max().unwrap_or(0);
        let bad = |job: &Job| job.allowed.count_ones() >= 3 && q * job.minutes > p * longest;
        match self.jobs().iter().position(bad) {
            Some(job) => Err(Fault::new(fault::LONG_JOB_WITH_CHOICE, job)),
            None => Ok(()),
        }
    }
}

impl Default for Sheet {
    fn default() -> Sheet {
        Sheet::new()
    }
}

//! A sheet as a list of frames that can be changed bit by bit.

use crate::codec::sheet::{Booked, Head, Job, NOTHING_BOOKED};
use crate::rng::Rng;

/// A field of a frame: its first bit, counted from the frame's first, and its width.
#[derive(Clone, Copy)]
pub struct Field {
    pub at: usize,
    pub width: usize,
}

const fn field(at: usize, width: usize) -> Field {
    Field { at, width }
}

pub const VERSION: Field = field(0, 4);
pub const KIND: Field = field(4, 4);
pub const LENGTH: Field = field(8, 16);
pub const BENCHES: Field = field(24, 7);
pub const P: Field = field(31, 7);
pub const Q: Field = field(38, 7);
pub const TARGET: Field = field(45, 30);
pub const HEAD_SPARE: Field = field(75, 5);
pub const MINUTES: Field = field(24, 20);
pub const ALLOWED: Field = field(44, 64);
pub const JOB_SPARE: Field = field(108, 4);
pub const BENCH: Field = field(24, 6);
pub const BOOKED: Field = field(30, 20);
pub const BOOKING_SPARE: Field = field(50, 6);

/// The bytes of a frame with the longest body that its header can tell.
const MOST_FRAME: usize = 3 + 65_535;

pub const HEAD: u64 = 1;
pub const JOB: u64 = 2;
pub const END: u64 = 3;
pub const BOOKING: u64 = 4;

/// Sets a field bit by bit, most significant first; higher bits of `value` are dropped.
pub fn set(frame: &mut [u8], field: Field, value: u64) {
    for i in 0..field.width {
        let bit = value >> (field.width - 1 - i) & 1;
        let at = field.at + i;
        let mask = 0x80 >> (at % 8);
        if bit == 1 {
            frame[at / 8] |= mask;
        } else {
            frame[at / 8] &= !mask;
        }
    }
}

pub fn get(frame: &[u8], field: Field) -> u64 {
    let bit = |at: usize| u64::from(frame[at / 8] >> (7 - at % 8) & 1);
    (field.at..field.at + field.width).fold(0, |value, at| value << 1 | bit(at))
}

/// A frame with a true body length.
pub fn frame(version: u64, kind: u64, body: &[u8]) -> Vec<u8> {
    let mut frame = vec![0; 3];
    set(&mut frame, VERSION, version);
    set(&mut frame, KIND, kind);
    set(&mut frame, LENGTH, body.len() as u64);
    frame.extend_from_slice(body);
    frame
}

pub fn head_frame(head: Head) -> Vec<u8> {
    let mut bytes = frame(1, HEAD, &[0; 7]);
    set(&mut bytes, BENCHES, head.benches);
    set(&mut bytes, P, head.p);
    set(&mut bytes, Q, head.q);
    set(&mut bytes, TARGET, head.target);
    bytes
}

pub fn job_frame(job: Job) -> Vec<u8> {
    let mut bytes = frame(1, JOB, &[0; 11]);
    set(&mut bytes, MINUTES, job.minutes);
    set(&mut bytes, ALLOWED, job.allowed);
    bytes
}

pub fn end_frame() -> Vec<u8> {
    frame(1, END, &[])
}

pub fn booking_frame(bench: u64, minutes: u64) -> Vec<u8> {
    let mut bytes = frame(1, BOOKING, &[0; 4]);
    set(&mut bytes, BENCH, bench);
    set(&mut bytes, BOOKED, minutes);
    bytes
}

/// All the bytes that its header tells are there, and no more.
fn is_whole(frame: &[u8]) -> bool {
    frame.len() >= 3 && get(frame, LENGTH) as usize + 3 == frame.len()
}

/// A whole frame of another version, with a body of this many bytes.
pub fn foreign_frame(rng: &mut Rng, body: usize) -> Vec<u8> {
    let version = rng.pick(&[0, 2, 3, 4, 5, 6, 7, 8, 9, 10, 11, 12, 13, 14, 15]);
    let kind = rng.range(0, 15);
    frame(version, kind, &rng.bytes(body))
}

#[derive(Clone)]
pub struct Draft {
    pub frames: Vec<Vec<u8>>,
}

impl Draft {
    /// Head, jobs, end.
    pub fn new(head: Head, jobs: &[Job]) -> Draft {
        Draft::booked(head, &NOTHING_BOOKED, jobs)
    }

    /// Head, bookings above 0 by rising bench, jobs, end.
    pub fn booked(head: Head, booked: &Booked, jobs: &[Job]) -> Draft {
        let mut frames = vec![head_frame(head)];
        let bookings = (0..).zip(booked).filter(|&(_, &minutes)| minutes > 0);
        frames.extend(bookings.map(|(bench, &minutes)| booking_frame(bench, minutes)));
        frames.extend(jobs.iter().map(|&job| job_frame(job)));
        frames.push(end_frame());
        Draft { frames }
    }

    pub fn bytes(&self) -> Vec<u8> {
        self.frames.concat()
    }

    pub fn len(&self) -> usize {
        self.place(self.frames.len())
    }

    pub fn is_empty(&self) -> bool {
        self.len() == 0
    }

    /// The first byte of this frame; of the one after the last, the sheet's length.
    pub fn place(&self, frame: usize) -> usize {
        self.frames[..frame].iter().map(Vec::len).sum()
    }

    /// The whole frames of version 1 and this kind that are long enough for its fields.
    pub fn of_kind(&self, kind: u64) -> Vec<usize> {
        let least = match kind {
            HEAD => 10,
            JOB => 14,
            BOOKING => 7,
            _ => 3,
        };
        let is = |frame: &[u8]| {
            frame.len() >= least
                && get(frame, VERSION) == 1
                && get(frame, KIND) == kind
                && is_whole(frame)
        };
        (0..self.frames.len()).filter(|&i| is(&self.frames[i])).collect()
    }

    /// The gaps where a booking is in its place: behind the head, and behind each booking or
    /// foreign frame that follows it.
    pub fn booking_gaps(&self) -> Vec<usize> {
        let mut gaps = Vec::new();
        let mut after_head = false;
        let whole = self.frames.iter().take_while(|frame| is_whole(frame));
        for (number, frame) in whole.enumerate() {
            match (get(frame, VERSION), get(frame, KIND), after_head) {
                (1, HEAD, false) => after_head = true,
                (1, BOOKING, true) => {}
                (1, _, _) => break,
                _ => {}
            }
            if after_head {
                gaps.push(number + 1);
            }
        }
        gaps
    }

    /// Puts a booking of 0 minutes where it is in its place, for a bench of the head that has no
    /// booking, and gives its gap; none if there is no such bench or no such gap.
    pub fn add_zero_booking(&mut self, rng: &mut Rng) -> Option<usize> {
        let gaps = self.booking_gaps();
        let head = *self.of_kind(HEAD).first()?;
        let mut benches: Vec<u64> = (0..get(&self.frames[head], BENCHES).min(64)).collect();
        for booking in self.of_kind(BOOKING) {
            benches.retain(|&bench| bench != get(&self.frames[booking], BENCH));
        }
        if gaps.is_empty() || benches.is_empty() {
            return None;
        }
        let gap = rng.pick(&gaps);
        self.frames.insert(gap, booking_frame(rng.pick(&benches), 0));
        Some(gap)
    }

    /// Puts the bookings in any order, and up to `most` of 0 minutes among them.
    pub fn scatter_bookings(&mut self, rng: &mut Rng, most: usize) {
        let bookings = self.of_kind(BOOKING);
        for last in (1..bookings.len()).rev() {
            self.frames.swap(bookings[last], bookings[rng.below(last + 1)]);
        }
        for _ in 0..rng.below(most + 1) {
            self.add_zero_booking(rng);
        }
    }

    /// Puts up to `most` foreign frames with small bodies into random gaps, also before the
    /// first frame and after the last.
    pub fn sprinkle(&mut self, rng: &mut Rng, most: usize) {
        for _ in 0..rng.below(most + 1) {
            let gap = rng.below(self.frames.len() + 1);
            let body = rng.below(6);
            self.frames.insert(gap, foreign_frame(rng, body));
        }
    }

    /// Brings the sheet to exactly `length` bytes, at least 3 more than now, by foreign frames
    /// in random gaps.
    pub fn pad_to(&mut self, rng: &mut Rng, length: usize) {
        let mut missing = length - self.len();
        while missing > 0 {
            // One frame takes all that is missing, or leaves enough for another.
            let bytes = if missing > MOST_FRAME || missing >= 6 && rng.one_in(2) {
                rng.range(3, (missing - 3).min(MOST_FRAME) as u64) as usize
            } else {
                missing
            };
            let gap = rng.below(self.frames.len() + 1);
            self.frames.insert(gap, foreign_frame(rng, bytes - 3));
            missing -= bytes;
        }
    }
}

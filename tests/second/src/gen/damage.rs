//! Changes to a draft, each aimed at one fault number. Where a draft was changed before, another
//! number may come first; the second codec says which.

use super::day::{bad_share, bench_bit};
use super::draft::{self, booking_frame, end_frame, foreign_frame, get, set, Draft};
use crate::rng::Rng;

/// The fault numbers that a frame or a whole sheet can be damaged to. "No sheet meets fault 10".
pub const DAMAGES: [u32; 12] = [2, 3, 4, 5, 6, 7, 8, 9, 11, 12, 14, 15];

const KINDS: [u64; 4] = [draft::HEAD, draft::JOB, draft::END, draft::BOOKING];

/// Damages the draft, aiming at fault `number`, one of `DAMAGES`. A draft without the frame that
/// the damage needs is left as it is.
pub fn damage(rng: &mut Rng, draft: &mut Draft, number: u32) {
    match number {
        2 => cut(rng, draft),
        3 => unknown_kind(rng, draft),
        4 => out_of_place(rng, draft),
        5 => body_length(rng, draft),
        6 => spare_bit(rng, draft),
        7 => benches(rng, draft),
        8 => share(rng, draft),
        9 => too_many_jobs(rng, draft),
        11 => allowed(rng, draft),
        12 => long_job_with_choice(rng, draft),
        14 => booking(rng, draft),
        15 => booked_twice(rng, draft),
        _ => unreachable!("no such damage"),
    }
}

fn in_one_of(
    rng: &mut Rng,
    draft: &mut Draft,
    kinds: &[u64],
    change: impl FnOnce(&mut Rng, &mut Vec<u8>),
) {
    let frames: Vec<usize> = kinds.iter().flat_map(|&kind| draft.of_kind(kind)).collect();
    if !frames.is_empty() {
        let frame = rng.pick(&frames);
        change(rng, &mut draft.frames[frame]);
    }
}

fn in_a_job(rng: &mut Rng, draft: &mut Draft, change: impl FnOnce(&mut Rng, &mut Vec<u8>)) {
    in_one_of(rng, draft, &[draft::JOB], change);
}

/// Drops everything from some frame on, and keeps none, some or most of that frame's bytes.
fn cut(rng: &mut Rng, draft: &mut Draft) {
    draft.frames.retain(|frame| !frame.is_empty());
    if draft.frames.is_empty() {
        return;
    }
    let frame = rng.below(draft.frames.len());
    draft.frames.truncate(frame + 1);
    let keep = rng.below(draft.frames[frame].len());
    draft.frames[frame].truncate(keep);
}

fn unknown_kind(rng: &mut Rng, draft: &mut Draft) {
    let kind = rng.pick(&[0, 5, 6, 7, 8, 9, 10, 11, 12, 13, 14, 15]);
    in_one_of(rng, draft, &KINDS, |_, frame| set(frame, draft::KIND, kind));
}

/// A frame before the head, a second head, a booking behind a job, or a frame after the end.
fn out_of_place(rng: &mut Rng, draft: &mut Draft) {
    let heads = draft.of_kind(draft::HEAD);
    let jobs = draft.of_kind(draft::JOB);
    let ends = draft.of_kind(draft::END);
    let (Some(&head), Some(&end)) = (heads.first(), ends.last()) else { return };
    let head_copy = draft.frames[head].clone();
    let booking = booking_frame(rng.range(0, 1), rng.range(0, 1));
    let other = match (rng.below(3), jobs.first()) {
        (0, Some(&job)) => draft.frames[job].clone(),
        (1, _) => booking.clone(),
        _ => end_frame(),
    };
    let behind = |rng: &mut Rng, frame: usize, last: usize| {
        rng.range(frame as u64 + 1, last.max(frame + 1) as u64) as usize
    };
    let (gap, frame) = match (rng.below(5), jobs.first()) {
        (0, _) => (rng.below(head + 1), other),
        (1, _) => (behind(rng, head, end), head_copy),
        (2, Some(&job)) => (behind(rng, job, end), booking),
        (3, _) => (behind(rng, end, draft.frames.len()), head_copy),
        _ => (behind(rng, end, draft.frames.len()), other),
    };
    draft.frames.insert(gap, frame);
}

/// A body longer or shorter than its kind has it; the frame stays whole.
fn body_length(rng: &mut Rng, draft: &mut Draft) {
    in_one_of(rng, draft, &KINDS, |rng, frame| {
        let body = frame.len() - 3;
        let new = match rng.below(4) {
            0 if body > 0 => body - 1,
            1 if body > 0 => rng.below(body),
            2 => body + 1,
            _ => body + 1 + rng.below(300),
        };
        frame.resize(3 + new, 0);
        set(frame, draft::LENGTH, new as u64);
    });
}

fn spare_bit(rng: &mut Rng, draft: &mut Draft) {
    in_one_of(rng, draft, &[draft::HEAD, draft::JOB, draft::BOOKING], |rng, frame| {
        let spare = match get(frame, draft::KIND) {
            draft::HEAD => draft::HEAD_SPARE,
            draft::JOB => draft::JOB_SPARE,
            _ => draft::BOOKING_SPARE,
        };
        let bits = rng.range(1, (1 << spare.width) - 1);
        set(frame, spare, bits);
    });
}

fn benches(rng: &mut Rng, draft: &mut Draft) {
    in_one_of(rng, draft, &[draft::HEAD], |rng, frame| {
        let benches = if rng.one_in(2) { rng.pick(&[0, 65]) } else { rng.range(65, 127) };
        set(frame, draft::BENCHES, benches);
    });
}

fn share(rng: &mut Rng, draft: &mut Draft) {
    in_one_of(rng, draft, &[draft::HEAD], |rng, frame| {
        let (p, q) = bad_share(rng);
        set(frame, draft::P, p);
        set(frame, draft::Q, q);
    });
}

/// Copies of a job behind it, until there are 513 or a few more.
fn too_many_jobs(rng: &mut Rng, draft: &mut Draft) {
    let jobs = draft.of_kind(draft::JOB);
    if jobs.is_empty() || jobs.len() > 512 {
        return;
    }
    let job = rng.pick(&jobs);
    let copies = 513 + rng.below(3) - jobs.len();
    let copy = draft.frames[job].clone();
    draft.frames.splice(job + 1..job + 1, std::iter::repeat_n(copy, copies));
}

fn allowed(rng: &mut Rng, draft: &mut Draft) {
    let Some(&head) = draft.of_kind(draft::HEAD).first() else { return };
    let benches = get(&draft.frames[head], draft::BENCHES);
    in_a_job(rng, draft, |rng, frame| {
        let old = get(frame, draft::ALLOWED);
        let new = if benches >= 64 || rng.one_in(2) {
            0
        } else if rng.one_in(2) {
            old | bench_bit(benches)
        } else {
            old | bench_bit(rng.range(benches, 63))
        };
        set(frame, draft::ALLOWED, new);
    });
}

/// A job with the most minutes that the field holds, on three benches.
fn long_job_with_choice(rng: &mut Rng, draft: &mut Draft) {
    in_one_of(rng, draft, &[draft::HEAD], |_, frame| {
        let benches = get(frame, draft::BENCHES);
        if (1..3).contains(&benches) {
            set(frame, draft::BENCHES, 3);
        }
    });
    in_a_job(rng, draft, |_, frame| {
        set(frame, draft::MINUTES, u64::MAX);
        set(frame, draft::ALLOWED, bench_bit(0) | bench_bit(1) | bench_bit(2));
    });
}

/// A booking of 0 minutes or more, for a bench that the head lacks.
fn booking(rng: &mut Rng, draft: &mut Draft) {
    let gaps = draft.booking_gaps();
    let Some(&head) = draft.of_kind(draft::HEAD).first() else { return };
    if gaps.is_empty() {
        return;
    }
    let mut benches = get(&draft.frames[head], draft::BENCHES);
    if benches >= 64 {
        benches = rng.range(1, 63);
        set(&mut draft.frames[head], draft::BENCHES, benches);
    }
    let bench = if rng.one_in(2) { benches } else { rng.range(benches, 63) };
    let minutes = rng.pick(&[0, 1, 30, u64::MAX]);
    draft.frames.insert(rng.pick(&gaps), booking_frame(bench, minutes));
}

/// One more booking of a bench, or two of bench 0, each of 0 minutes or more; now and then with a
/// foreign frame among the bookings.
fn booked_twice(rng: &mut Rng, draft: &mut Draft) {
    let bookings = draft.of_kind(draft::BOOKING);
    let (bench, copies) = match bookings.first() {
        Some(_) => (get(&draft.frames[rng.pick(&bookings)], draft::BENCH), 1),
        None => (0, 2),
    };
    let foreign = rng.one_in(3).then(|| foreign_frame(rng, 4));
    let copies = (0..copies).map(|_| booking_frame(bench, rng.pick(&[0, 0, 1, 30, u64::MAX])));
    for frame in copies.collect::<Vec<_>>().into_iter().chain(foreign) {
        let gaps = draft.booking_gaps();
        if !gaps.is_empty() {
            draft.frames.insert(rng.pick(&gaps), frame);
        }
    }
}

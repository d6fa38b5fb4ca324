//! Every fault number, its place and its words, and sizes that are wrong.

use std::error::Error;
use yinqocha::{Benches, Call, Fault, Head, Job, Share, Sheet};

const HEAD: Head = Head { benches: 3, share: Share { p: 4, q: 7 }, target: 9 };
/// Three benches, share 4/7, target 9, as the library writes it.
const HEAD_FRAME: &[u8] = b"\x11\x00\x07\x06\x10\x38\x00\x00\x01\x20";
const END_FRAME: &[u8] = b"\x13\x00\x00";
/// Bench 0 booked for 3 minutes.
const BOOKING_FRAME: &[u8] = b"\x14\x00\x04\x00\x00\x00\xC0";

fn both() -> Benches {
    Benches::first(2)
}

fn job(minutes: u64, allowed: Benches) -> Job {
    Job { minutes, allowed }
}

/// Number, place and words of a fault, of which the call must be the one named.
#[track_caller]
fn expect<T>(said: Result<T, Fault>, call: Call, number: u32, place: u32, words: &str) {
    let fault = said.err().expect("a fault");
    assert_eq!((fault.call(), fault.number(), fault.place()), (call, number, place));
    assert_eq!(fault.to_string(), words);
}

/// The frame of a job as the library writes it, in a sheet with a job that is long enough for it.
fn job_frame(minutes: u64, allowed: Benches) -> Vec<u8> {
    let longest = job(yinqocha::MAX_MINUTES, both());
    let head = Head { benches: 64, ..HEAD };
    let sheet = Sheet::write(head, &[], &[job(minutes, allowed), longest]).expect("no fault");
    sheet.as_bytes()[HEAD_FRAME.len()..][..14].to_vec()
}

/// The frame with another byte in one place.
fn changed(frame: &[u8], at: usize, byte: u8) -> Vec<u8> {
    let mut changed = frame.to_vec();
    changed[at] = byte;
    changed
}

/// What is said of a job that allows no bench, or one that the head lacks.
const ALLOWED: &str = "allows no bench, or one that the head lacks";
const WITH_CHOICE: &str =
    "allows three or more benches and is longer than the share of the longest job";

fn cut(place: u32) -> String {
    let inside = format!("it ends inside the frame at byte {place}");
    format!("the sheet is cut: {inside}, or there without an end frame")
}

#[test]
fn a_sheet_that_is_too_long_or_cut_is_a_fault() {
    let too_long = "the sheet is longer than 65,536 bytes";
    expect(Sheet::read(&[0; 65_537]), Call::Read, Fault::SHEET_TOO_LONG, 0, too_long);
    let whole = [HEAD_FRAME, END_FRAME].concat();
    assert!(Sheet::read(&whole).is_ok());
    for length in 0..whole.len() {
        let place = if length < HEAD_FRAME.len() { 0 } else { 10 };
        let said = Sheet::read(&whole[..length]);
        expect(said, Call::Read, Fault::SHEET_CUT, place, &cut(place));
    }
    // 65,536 bytes are not too long: frames of version 0 without a body, and one byte.
    let cut_at_the_end = cut(65_535);
    expect(Sheet::read(&[0; 65_536]), Call::Read, Fault::SHEET_CUT, 65_535, &cut_at_the_end);
}

#[test]
fn the_frames_of_a_sheet_that_is_read_have_each_of_their_faults() {
    let (head, end, booking) = (HEAD_FRAME, END_FRAME, BOOKING_FRAME);
    let job = job_frame(5, both());
    let rows: [(&[&[u8]], u32, u32, &str); 8] = [
        (&[head, b"\x15\x00\x00", end], 3, 10, "has a kind other than 1, 2, 3, 4"),
        (&[head, head, end], 4, 10, "is out of its place"),
        (&[end], 4, 0, "is out of its place"),
        (&[head, &job, booking, end], 4, 24, "is out of its place"),
        (&[head, end, &job], 4, 13, "is out of its place"),
        (&[head, b"\x13\x00\x01\x00"], 5, 10, "has a body length that is not of its kind"),
        (&[&changed(head, 9, 0x21), end], 6, 0, "has a spare bit that is 1"),
        (&[head, &changed(booking, 6, 0xC1), end], 6, 10, "has a spare bit that is 1"),
    ];
    for (frames, number, place, words) in rows {
        let words = format!("the frame at byte {place} {words}");
        expect(Sheet::read(&frames.concat()), Call::Read, number, place, &words);
    }
}

#[test]
fn the_fields_of_a_sheet_that_is_read_have_each_of_their_faults() {
    let (head, end, booking) = (HEAD_FRAME, END_FRAME, BOOKING_FRAME);
    let (job, wide) = (job_frame(5, both()), job_frame(1, Benches::first(4)));
    let long = job_frame(3, Benches::first(3));
    let no_bench = [&b"\x12\x00\x0B"[..], &[0; 11]].concat();
    let share = "has a bad share: q is 0, or 7p < 4q, or p >= q";
    let rows: [(&[&[u8]], u32, u32, String); 9] = [
        (&[&changed(head, 3, 0), end], 7, 0, "head at byte 0 has 0 benches or more than 64".into()),
        (&[b"\x21\x00\x00", &changed(head, 5, 0), end], 8, 3, format!("head at byte 3 {share}")),
        (
            &[head, &changed(booking, 3, 3 << 2), end],
            14,
            10,
            "booking at byte 10 is of a bench that the head lacks".into(),
        ),
        (
            &[head, booking, booking, end],
            15,
            17,
            "booking at byte 17 is of a bench that already had one".into(),
        ),
        (&[head, &job.repeat(513), end], 9, 7178, "job at byte 7178 is the 513th".into()),
        (&[head, &wide, end], 11, 10, format!("job at byte 10 {ALLOWED}")),
        (&[head, &no_bench, end], 11, 10, format!("job at byte 10 {ALLOWED}")),
        (&[head, &job, &no_bench, end], 11, 24, format!("job at byte 24 {ALLOWED}")),
        (&[head, &job, &wide], 11, 24, format!("job at byte 24 {ALLOWED}")),
    ];
    for (frames, number, place, words) in rows {
        let words = format!("the {words}");
        expect(Sheet::read(&frames.concat()), Call::Read, number, place, &words);
    }
    let sheet = [head, &job, &long, end].concat();
    expect(Sheet::read(&sheet), Call::Read, 12, 1, &format!("job 1 {WITH_CHOICE}"));
}

#[test]
fn a_head_that_is_written_has_each_of_its_faults() {
    let benches =
        "the head has 0 benches or more than 64, or a target that does not fit its 30 bits";
    let share = "the share is bad: q is 0, or 7p < 4q, or p >= q, or one does not fit its 7 bits";
    let with_share = |p, q| Head { share: Share { p, q }, ..HEAD };
    let rows = [
        (Head { benches: 0, ..HEAD }, 7, benches),
        (Head { benches: 65, ..HEAD }, 7, benches),
        (Head { benches: u64::MAX, ..HEAD }, 7, benches),
        (Head { target: 1 << 30, ..HEAD }, 7, benches),
        (with_share(0, 0), 8, share),
        (with_share(7, 7), 8, share),
        (with_share(1, 2), 8, share),
        (with_share(128, 129), 8, share),
    ];
    for (head, number, words) in rows {
        expect(Sheet::write(head, &[1 << 20], &[]), Call::Write, number, 0, words);
    }
}

/// Bookings and jobs, and the number, the place and the words of their fault.
type Written<'a> = (&'a [u64], &'a [Job], u32, u32, String);

#[test]
fn bookings_and_jobs_that_are_written_have_each_of_their_faults() {
    let (good, wide) = (job(5, both()), 1 << 20);
    let booking = "is booked, and the head lacks it or the minutes do not fit their 20 bits";
    let rows: [Written; 8] = [
        (&[0, wide], &[good], 14, 1, format!("bench 1 {booking}")),
        (&[0, 0, 0, 1], &[good], 14, 3, format!("bench 3 {booking}")),
        (&[], &[good; 513], 9, 512, "there are more than 512 jobs".into()),
        (&[], &[good; 5000], 9, 512, "there are more than 512 jobs".into()),
        (
            &[],
            &[good, job(wide, both())],
            10,
            1,
            "the minutes of job 1 do not fit their 20 bits".into(),
        ),
        (&[], &[good, good, job(5, Benches::EMPTY)], 11, 2, format!("job 2 {ALLOWED}")),
        (&[], &[job(5, Benches::first(4))], 11, 0, format!("job 0 {ALLOWED}")),
        (&[], &[good, job(3, Benches::first(3))], 12, 1, format!("job 1 {WITH_CHOICE}")),
    ];
    for (booked, jobs, number, place, words) in rows {
        expect(Sheet::write(HEAD, booked, jobs), Call::Write, number, place, &words);
    }
}

/// A fault of an earlier job comes before that of the 513th.
#[test]
fn jobs_are_tried_in_their_order() {
    let mut jobs = vec![job(5, both()); 600];
    jobs[511].minutes = 1 << 20;
    let numbers = |jobs: &[Job]| Sheet::write(HEAD, &[], jobs).map_err(Fault::number);
    assert_eq!(numbers(&jobs), Err(Fault::BAD_MINUTES));
    jobs.swap(511, 512);
    assert_eq!(numbers(&jobs), Err(Fault::TOO_MANY_JOBS));
}

/// Every length of the bookings; entries past the 64th are 0 or a fault, in the order of faults.
#[test]
fn bookings_may_have_any_length() {
    let head = Head { benches: 64, ..HEAD };
    for length in 0..200 {
        let mut booked = vec![0; length];
        assert!(Sheet::write(head, &booked, &[]).is_ok());
        for at in 0..length {
            booked[at] = 1;
            let place =
                Sheet::write(head, &booked, &[]).err().map(|fault| (fault.number(), fault.place()));
            assert_eq!(place, (at >= 64).then_some((14, at as u32)));
            booked[at] = 0;
        }
    }
    let booked: Vec<u64> = (0..200).map(|bench| u64::from(bench >= 150)).collect();
    let place = |head, jobs: &[Job]| {
        Sheet::write(head, &booked, jobs).map_err(|fault| (fault.number(), fault.place()))
    };
    assert_eq!(place(head, &[job(1 << 20, both())]), Err((14, 150)));
    assert_eq!(place(Head { benches: 65, ..head }, &[]), Err((7, 0)));
}

#[test]
fn a_list_of_another_length_is_a_fault() -> Result<(), Fault> {
    let sheet = Sheet::write(HEAD, &[], &[job(5, both()); 3])?;
    let first = "the first list does not give each job one bench that it allows";
    let second = "the second list does not give each job one bench that it allows";
    for length in [0, 1, 2, 4, 512, 513, 514, 5000] {
        let list = vec![0_u64; length];
        let no_list = "the list does not have one place a job";
        expect(sheet.check_plan(&list), Call::CheckPlan, Fault::BAD_LIST, 0, no_list);
        expect(sheet.compare(&list, &[0_u8; 3]), Call::Compare, Fault::NO_ASSIGNMENT, 0, first);
        expect(sheet.compare(&[0_u8; 3], &list), Call::Compare, Fault::NO_ASSIGNMENT, 1, second);
    }
    expect(sheet.compare(&[0_u8, 0, 2], &[0_u8; 3]), Call::Compare, 13, 0, first);
    expect(sheet.compare(&[0_u8; 3], &[0, 0, u64::MAX]), Call::Compare, 13, 1, second);
    Ok(())
}

#[test]
fn a_full_sheet_takes_a_list_of_512_places() -> Result<(), Fault> {
    let head = Head { target: 600, ..HEAD };
    let sheet = Sheet::write(head, &[], &[job(1, both()); 512])?;
    assert!(sheet.check_plan(&[0_u8; 512]).is_ok());
    for length in [511, 513] {
        let fault = sheet.check_plan(&vec![0_u8; length]).map_err(Fault::number);
        assert_eq!(fault, Err(Fault::BAD_LIST));
    }
    Ok(())
}

#[test]
fn sets_and_pages_have_each_of_their_faults() -> Result<(), Fault> {
    let sheet = Sheet::write(HEAD, &[10, 10, 10], &[])?;
    let [a, b] = [0, 1].map(|number| Benches::of([number]).expect("a bench"));
    let wide = Benches::of([1, 3, 63]).expect("benches");
    let (set, page) = (Call::CheckSet, Call::CheckPage);
    expect(sheet.check_set(Benches::EMPTY), set, 17, 0, "the set is empty");
    expect(sheet.check_set(wide), set, 17, 3, "the set has bench 3, which the head lacks");
    let bad = "set 1 of the page is empty, or has a bench that the head lacks";
    expect(sheet.check_page(&[a, Benches::EMPTY]), page, 17, 1, bad);
    expect(sheet.check_page(&[a, wide]), page, 17, 1, bad);
    let shared = "set 2 of the page shares a bench with an earlier set";
    expect(sheet.check_page(&[a, b, a | b]), page, 18, 2, shared);
    Ok(())
}

/// 64 sets are a page, and the 65th shares a bench.
#[test]
fn a_page_may_have_any_length() -> Result<(), Fault> {
    let sheet = Sheet::write(Head { benches: 64, ..HEAD }, &[10; 64], &[])?;
    let page: Vec<Benches> = (0..64).filter_map(|number| Benches::of([number])).collect();
    assert_eq!(sheet.check_page(&page)?, yinqocha::PageCheck::Passed);
    for longer in [65, 66, 1000] {
        let page: Vec<Benches> = page.iter().cycle().copied().take(longer).collect();
        let words = "set 64 of the page shares a bench with an earlier set";
        expect(sheet.check_page(&page), Call::CheckPage, 18, 64, words);
    }
    Ok(())
}

#[test]
fn a_fault_is_an_error() {
    let fault: Box<dyn Error + Send + Sync> = Sheet::read(&[]).expect_err("a fault").into();
    assert!(fault.to_string().starts_with("the sheet is cut"));
}

//! The writer: "gives the head, the jobs in order, and the end, all version 1", and before the jobs
//! the non-zero bookings "by rising bench".

use super::fault::{self, Fault};
use super::frame::{Fields, Kind, HEADER_BYTES, VERSION};
use super::sheet::{Given, Head, Sheet};

/// The length of a sheet as the writer gives it, with so many non-zero bookings and jobs.
pub fn sheet_bytes(bookings: usize, jobs: usize) -> usize {
    let several = bookings * frame_bytes(Kind::Booking) + jobs * frame_bytes(Kind::Job);
    frame_bytes(Kind::Head) + several + frame_bytes(Kind::End)
}

fn frame_bytes(kind: Kind) -> usize {
    HEADER_BYTES + kind.body_bytes()
}

/// Writes the sheet at the front of `out`; number b of `booked` is that of bench b. "It returns the
/// length written, and later bytes keep their contents. Its output keeps its contents after a
/// fault." `sheet` is a place to work in.
pub fn write(
    head: Head,
    booked: impl Iterator<Item = u64>,
    jobs: impl Iterator<Item = Given>,
    sheet: &mut Sheet,
    out: &mut [u8],
) -> Result<usize, Fault> {
    // "with job numbers as places (0 for 7 and 8)".
    sheet.set_head(head).map_err(|number| Fault::new(number, 0))?;
    // "a non-zero one for a bench the head lacks is 14 too"; "lowest bench first".
    for (bench, minutes) in booked.enumerate().filter(|&(_, minutes)| minutes != 0) {
        let taken = sheet.add_booking(bench as u64, minutes);
        taken.map_err(|number| Fault::new(number, bench))?;
    }
    for (job, fields) in jobs.enumerate() {
        sheet.add_job(fields).map_err(|number| Fault::new(number, job))?;
    }
    sheet.whole()?;
    // "and by 13 where its output does not fit".
    let length = sheet_bytes(bookings(sheet).count(), sheet.jobs().len());
    if length > out.len() {
        return Err(Fault::new(fault::NO_ROOM, 0));
    }
    let Head { benches, p, q, target } = sheet.head();
    let mut rest = &mut out[..length];
    rest = put_frame(rest, Kind::Head, [benches, p, q, target, 0]);
    for (bench, minutes) in bookings(sheet) {
        rest = put_frame(rest, Kind::Booking, [bench as u64, minutes, 0]);
    }
    for job in sheet.jobs() {
        rest = put_frame(rest, Kind::Job, [job.minutes, job.allowed, 0]);
    }
    put_frame(rest, Kind::End, []);
    Ok(length)
}

/// The benches with a non-zero booking, rising, and the minutes.
fn bookings(sheet: &Sheet) -> impl Iterator<Item = (usize, u64)> + '_ {
    let benches = sheet.booked().iter().copied().enumerate();
    benches.filter(|&(_, minutes)| minutes != 0)
}

/// Puts one frame at the front of `out` and hands back what lies behind it.
#[inline(always)]
fn put_frame<const N: usize>(out: &mut [u8], kind: Kind, values: [u64; N]) -> &mut [u8] {
    let (frame, rest) = out.split_at_mut(frame_bytes(kind));
    let (header, body) = frame.split_at_mut(HEADER_BYTES);
    let mut fields = Fields::none();
    fields.put(VERSION, 4);
    fields.put(kind.number(), 4);
    fields.put(body.len() as u64, 16);
    fields.copy_to(header);
    let mut fields = Fields::none();
    for (value, &width) in values.into_iter().zip(kind.widths()) {
        fields.put(value, width);
    }
    fields.copy_to(body);
    rest
}

//! The reader: the bytes of a sheet to its head, bookings and jobs, or a fault.

use super::fault::{self, Fault};
use super::frame::{Fields, Frame, Kind, VERSION};
use super::sheet::{Head, Job, Sheet};

pub const MAX_BYTES: usize = 65_536;

/// What has been read so far of a row that should be a head, bookings, jobs and an end.
#[derive(Clone, Copy, PartialEq, Eq)]
enum Progress {
    BeforeHead,
    AfterHead,
    AfterJob,
    AfterEnd,
}

impl Progress {
    /// None where a frame of this kind is out of its place: "a job or end before the head, a second
    /// head, or any after the end". "Bookings stand after the head and before the first job".
    fn after(self, kind: Kind) -> Option<Progress> {
        match (self, kind) {
            (Progress::BeforeHead, Kind::Head) => Some(Progress::AfterHead),
            (Progress::AfterHead, Kind::Booking) => Some(Progress::AfterHead),
            (Progress::AfterHead | Progress::AfterJob, Kind::Job) => Some(Progress::AfterJob),
            (Progress::AfterHead | Progress::AfterJob, Kind::End) => Some(Progress::AfterEnd),
            _ => None,
        }
    }
}

/// Reads `bytes` into `sheet`. After a fault the contents of `sheet` say nothing.
pub fn read(bytes: &[u8], sheet: &mut Sheet) -> Result<(), Fault> {
    // "The sheet is longer than 65,536 bytes (place 0)."
    if bytes.len() > MAX_BYTES {
        return Err(Fault::new(fault::SHEET_TOO_LONG, 0));
    }
    // "Frames are judged in sheet order; numbers 2 to 11 are tried in this order at each frame.
    // The place is the frame's first byte".
    let mut progress = Progress::BeforeHead;
    let mut place = 0;
    while place < bytes.len() {
        // "The sheet ends inside a frame of any version (place: that frame)".
        let Some(frame) = Frame::first(&bytes[place..]) else {
            return Err(Fault::new(fault::SHEET_CUT, place));
        };
        // "A frame whose version is not 1 is skipped by its length, wherever it stands, also
        // after the end frame."
        if frame.version == VERSION {
            progress = take(&frame, progress, sheet).map_err(|number| Fault::new(number, place))?;
        }
        place += frame.bytes();
    }
    // "or its frames are over and none was an end frame (place: the sheet's length)".
    if progress != Progress::AfterEnd {
        return Err(Fault::new(fault::SHEET_CUT, bytes.len()));
    }
    sheet.whole()
}

/// Takes one frame of version 1, or gives the number of its fault: tests 3 to 11, 14 and 15.
fn take(frame: &Frame, progress: Progress, sheet: &mut Sheet) -> Result<Progress, u32> {
    let kind = Kind::from_number(frame.kind).ok_or(fault::UNKNOWN_KIND)?;
    let progress = progress.after(kind).ok_or(fault::OUT_OF_PLACE)?;
    match kind {
        Kind::Head => {
            let [benches, p, q, target, _] = fields(Kind::Head, frame.body)?;
            sheet.set_head(Head { benches, p, q, target })?;
        }
        Kind::Job => {
            let [minutes, allowed, _] = fields(Kind::Job, frame.body)?;
            sheet.add_job(Job { minutes, allowed }.into())?;
        }
        Kind::End => {
            let [] = fields(Kind::End, frame.body)?;
        }
        Kind::Booking => {
            let [bench, minutes, _] = fields(Kind::Booking, frame.body)?;
            sheet.add_booking(bench, minutes)?;
        }
    }
    Ok(progress)
}

/// The fields of a body, in order and the spare bits last, or a fault: tests 5 and 6.
#[inline(always)]
fn fields<const N: usize>(kind: Kind, body: &[u8]) -> Result<[u64; N], u32> {
    // "The body length is not that of its kind."
    if body.len() != kind.body_bytes() {
        return Err(fault::BODY_LENGTH);
    }
    let mut bits = Fields::of(body);
    let values: [u64; N] = std::array::from_fn(|field| bits.take(kind.widths()[field]));
    // "Spare bits are zero."
    if values.last().is_some_and(|&spare| spare != 0) {
        return Err(fault::SPARE_BIT);
    }
    Ok(values)
}

//! Frames: the header, the kinds of version 1, and fields of bits.

/// "A frame header has 24 bits: version (4), kind (4), body length in bytes (16)."
pub const HEADER_BYTES: usize = 3;
/// The version that is read; "a frame whose version is not 1 is skipped by its length".
pub const VERSION: u64 = 1;

/// "Version 1 has these kinds."
#[derive(Clone, Copy, Debug, PartialEq, Eq)]
pub enum Kind {
    Head,
    Job,
    End,
    Booking,
}

impl Kind {
    pub const ALL: [Kind; 4] = [Kind::Head, Kind::Job, Kind::End, Kind::Booking];

    pub fn number(self) -> u64 {
        match self {
            Kind::Head => 1,
            Kind::Job => 2,
            Kind::End => 3,
            Kind::Booking => 4,
        }
    }

    pub fn from_number(number: u64) -> Option<Kind> {
        Kind::ALL.into_iter().find(|kind| kind.number() == number)
    }

    /// The widths of the body's fields in bits, the spare bits last.
    pub fn widths(self) -> &'static [u32] {
        match self {
            // benches, p, q, target, spare
            Kind::Head => &[7, 7, 7, 30, 5],
            // minutes, benches allowed, spare
            Kind::Job => &[20, 64, 4],
            Kind::End => &[],
            // bench, booked minutes, spare
            Kind::Booking => &[6, 20, 6],
        }
    }

    /// "head, 7 bytes", "job, 11 bytes", "end, no body"; a booking has "4 bytes".
    pub fn body_bytes(self) -> usize {
        self.widths().iter().sum::<u32>() as usize / 8
    }
}

/// One frame at the front of a row of frames.
pub struct Frame<'a> {
    pub version: u64,
    pub kind: u64,
    pub body: &'a [u8],
}

impl<'a> Frame<'a> {
    /// None where the row ends inside the frame, be it in the header or in the body.
    pub fn first(row: &'a [u8]) -> Option<Frame<'a>> {
        let header = row.get(..HEADER_BYTES)?;
        let length = usize::from(header[1]) * 256 + usize::from(header[2]);
        Some(Frame {
            version: u64::from(header[0] / 16),
            kind: u64::from(header[0] % 16),
            body: row.get(HEADER_BYTES..HEADER_BYTES + length)?,
        })
    }

    pub fn bytes(&self) -> usize {
        HEADER_BYTES + self.body.len()
    }
}

/// Up to 128 bits, "fields packed most significant bit first". Fields are taken from the front
/// and put at the back.
#[derive(Clone, Copy)]
pub struct Fields {
    bits: u128,
    width: u32,
}

impl Fields {
    pub fn none() -> Fields {
        Fields { bits: 0, width: 0 }
    }

    /// The bits of a body of at most 16 bytes.
    pub fn of(body: &[u8]) -> Fields {
        let mut bytes = [0; 16];
        bytes[16 - body.len()..].copy_from_slice(body);
        Fields { bits: u128::from_be_bytes(bytes), width: 8 * body.len() as u32 }
    }

    /// The first `width` bits, which leave the front.
    pub fn take(&mut self, width: u32) -> u64 {
        self.width -= width;
        let value = self.bits >> self.width;
        self.bits -= value << self.width;
        value as u64
    }

    /// `value`, which fits in `width` bits, put behind the others.
    pub fn put(&mut self, value: u64, width: u32) {
        self.bits = self.bits << width | u128::from(value);
        self.width += width;
    }

    /// Whole bytes into `out`, which has their number.
    pub fn copy_to(self, out: &mut [u8]) {
        out.copy_from_slice(&self.bits.to_be_bytes()[16 - out.len()..]);
    }
}

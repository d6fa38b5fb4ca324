//! The second implementation: sheets and plans once more, written from the papers alone, and what
//! the tests need to set it against the static library and the programs. Nothing here links the
//! library; the programs in `linked` do, and the one in `programs` runs the programs.
//!
//! - `codec`: the second codec, reader and writer of sheets, from document 01.
//! - `planner`: the second planner, from document 01 and its source.
//! - `judge`: what an answer must be, by search, without the run.
//! - `printed`: what the programs behind `./bay`, `./show` and `./best` print.
//! - `gen`: generators of sheets and tables, good and damaged.
//! - `corpus`: small days with their answers, and slow full sheets.
//! - `papers`: small days with lists, sets and pages from elsewhere, and what their checks say.
//! - `light_days`: full sheets of light jobs with a choice.
//! - `outcome`: what planning left, entry by entry.
//! - `stored`: sheets with what planning left, as a text.
//! - `samples`: the sheets of the folder samples/.
//! - `lent`: buffers as they are lent to the static library.
//! - `arguments`: the seed and the number of sheets that a program is given.
//! - `rng`: seeded random numbers.
//! - `checksum`: a checksum of bytes.
//! - `hex`: bytes in hexadecimal.

pub mod arguments;
pub mod checksum;
pub mod codec;
pub mod corpus;
pub mod gen;
pub mod hex;
pub mod judge;
pub mod lent;
pub mod light_days;
pub mod outcome;
pub mod papers;
pub mod planner;
pub mod printed;
pub mod rng;
pub mod samples;
pub mod stored;

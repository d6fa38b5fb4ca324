//! The second codec, from document 01 and requests S-1 and S-3 of document 02 alone. Sentences in
//! quotation marks are theirs.
//!
//! - `fault`: the fault numbers, and a fault with its place.
//! - `frame`: frame headers, the kinds of version 1, and fields of bits.
//! - `sheet`: head, bookings, jobs and sheet, and the tests that reader and writer share.
//! - `reader`, `writer`: bytes to a sheet, and fields to bytes.
//! - `door`: the same through tables and result words, as the static library has them.
//!
//! A new kind of frame is a new case of `frame::Kind`, and the compiler then names each place that
//! must say something about it: its number, its body, its place in the row, its fields.

pub mod door;
pub mod fault;
pub mod frame;
pub mod reader;
pub mod sheet;
pub mod writer;

#[cfg(test)]
mod minutes_tests;
#[cfg(test)]
mod reader_tests;
#[cfg(test)]
mod writer_tests;

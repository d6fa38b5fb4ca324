//! Buffers as they are lent to the static library.
//!
//! - `empty`: the pointer of a buffer of length 0.
//! - `guarded`: buffers with guard bytes on both sides.
//! - `tables`: tables for the largest sheet, filled with what is no answer.

pub mod empty;
pub mod guarded;
pub mod tables;

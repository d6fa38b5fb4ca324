//! Generators of sheets and of the writer's tables, good and damaged.
//!
//! - `draft`: a sheet as a list of frames that can be changed bit by bit.
//! - `day`: random heads, bookings and jobs that are taken, and ones at the edges of the rules.
//! - `bookings`: random bookings of benches.
//! - `check_only`: jobs of 0 minutes.
//! - `damage`: changes to a draft, each aimed at one fault number.
//! - `bay`: days for the run.
//! - `lists`: lists of places.
//! - `tables`: the writer's fields and tables, and changes to them.
//!
//! Nothing here uses the second codec's packing of fields, so that an error there cannot hide.

pub mod bay;
pub mod bookings;
pub mod check_only;
pub mod damage;
pub mod day;
pub mod draft;
pub mod lists;
pub mod tables;

#[cfg(test)]
mod gen_tests;

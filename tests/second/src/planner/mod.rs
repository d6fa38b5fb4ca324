//! The second planner: document 01's run, written from that document, requests S-1 to S-4 and S-6
//! to S-8 of document 02, chapter 4 of source document 000 and the note on least placements.
//! Sentences in quotation marks are theirs. Every weight is multiplied by 3q when it enters the
//! run, so that each comparison is exact.
//!
//! - `set`: sets of benches and of rocks.
//! - `rocks`: heavy jobs as edges between benches; crowded components; peeling.
//! - `bay`: what a sheet and its target are for the run: limits, own loads, rocks, pebbles.
//! - `orientation`: directed and neutral rocks, FORCED ORIENTATIONS, the neutral rocks of a plan.
//! - `explore`: EXPLORE2 with conflict set, activated set and levels.
//! - `push`: the PUSH operation.
//! - `algorithm`: Algorithm 2, from bytes to the answer; the comparison of two plans.
//! - `best`: the search for the best target.
//! - `least`: the least weight that a placement leaves in a set of benches.
//! - `checker`: the check of a list of places, of a set of benches and of a page of sets.
//! - `door`: the same through tables and result words, as the static library has them.
//!
//! Words of chapter 4: a *rock* is a heavy job with two benches, a *pebble* a light job with two or
//! more, *dedicated load* what can lie on one bench only, booked minutes among it. A bench's own
//! load is its dedicated load and the pebbles that lie there now; rocks directed to it come on top.

pub mod algorithm;
pub mod bay;
pub mod best;
pub mod checker;
pub mod door;
pub mod explore;
pub mod least;
pub mod orientation;
pub mod push;
pub mod rocks;
pub mod set;

#[cfg(test)]
mod best_tests;
#[cfg(test)]
mod booking_tests;
#[cfg(test)]
mod check_only_tests;
#[cfg(test)]
mod compare_tests;
#[cfg(test)]
mod door_tests;
#[cfg(test)]
pub(crate) mod example_tests;
#[cfg(test)]
mod fullest_tests;
#[cfg(test)]
mod least_tests;
#[cfg(test)]
mod literal;
#[cfg(test)]
mod run_tests;

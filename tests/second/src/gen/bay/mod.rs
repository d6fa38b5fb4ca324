//! Days for the run: heavy jobs in all shapes, light jobs with choices, targets at the edges.
//!
//! - `weights`: minutes at and between the limits of a head.
//! - `heavy`: pairs of benches for heavy jobs: chains, cycles, trees, parallel and crowded ones.
//! - `light`: sets of benches for light jobs.
//! - `light_only`: full days of light jobs with a choice and nothing else.
//! - `placements`: days with placements of all sorts, and sets that weigh about k × T.
//! - `families`: disjoint sets that weigh about k × T each, and ones that are no page.
//! - `days`: whole days, tiny to full, and ones made from an assignment within T.
//! - `tight`: days with benches at the limits.
//! - `tied`: days on which several benches have the largest load.
//! - `alike`: days with many plans whose loads are equal.
//! - `turning`: targets around the one where none turns to plan.
//! - `slow`: full days with many moves.

pub mod alike;
pub mod days;
pub mod families;
pub mod heavy;
pub mod light;
pub mod light_only;
pub mod placements;
pub mod slow;
pub mod tied;
pub mod tight;
pub mod turning;
pub mod weights;

#[cfg(test)]
mod bay_tests;

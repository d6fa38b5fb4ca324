//! Pages of sets, one round.
//!
//! - `tiny`: all pages of tiny sheets.
//! - `families`: disjoint sets of sheets of all sizes.
//! - `faulty`: pages with a fault, or several; wide pages; begun entries.
//! - `laws`: what holds between the answers to several pages.

mod families;
mod faulty;
mod laws;
mod tiny;

pub use laws::of_one_set;

use super::Checks;

pub fn round(checks: &mut Checks) {
    tiny::round(checks);
    families::round(checks);
    faulty::round(checks);
}

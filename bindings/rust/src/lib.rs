//! Plans the days of a depot's test bay: a safe door to the static library `yinqocha`, whose plans,
//! refusals and checks are proved.
//!
//! A [`Sheet`] holds one day: how many benches there are, the share, the target in minutes, the
//! minutes for which benches are booked before the day begins, and the jobs, each with its minutes
//! and the benches that may take it. It is written from these ([`Sheet::write`]) or read from bytes
//! ([`Sheet::read`]); either way it is without a fault. [`Sheet::plan`] gives a [`Plan`] or a
//! [`Refusal`], [`Sheet::best`] the best target with its plan. Lists of places, blocking sets and
//! pages of such sets that come from elsewhere are checked with [`Sheet::check_plan`],
//! [`Sheet::check_set`] and [`Sheet::check_page`], two lists compared with [`Sheet::compare`].
//!
//! ```
//! use yinqocha::{Benches, Head, Job, Share, Sheet};
//!
//! // Four jobs of 2 minutes and a check on bench 0 or 1, which are booked for 2 and 3 minutes.
//! let both = Benches::first(2);
//! let head = Head { benches: 2, share: Share { p: 4, q: 7 }, target: 4 };
//! let jobs = [2, 2, 2, 2, 0].map(|minutes| Job { minutes, allowed: both });
//! let sheet = Sheet::write(head, &[2, 3], &jobs)?;
//!
//! match sheet.plan()? {
//!     Ok(plan) => assert_eq!(plan.loads(), [6, 7]),
//!     Err(refusal) => panic!("no assignment keeps every bench within the target: {refusal}"),
//! }
//! # Ok::<(), yinqocha::Fault>(())
//! ```
//!
//! What the numbers mean, and what is proved of the answers, is said in the library's manual, the
//! header `yinqocha.h`. Jobs and benches count from 0. Every number of every argument has an answer
//! or a [`Fault`]; nothing here panics, takes memory from the heap, or keeps a state. The module
//! [`door`] has the functions of the C door on bytes, one for one.
//!
//! A thread needs about 160 KiB of stack for any call, also in a debug build; about 16 KiB of that
//! are a sheet.
//!
//! The crate links `libyinqocha.a` from the folder that the environment variable `YINQOCHA_LIB`
//! names; where it names none, from that of the installed package by `pkg-config`; where none is
//! installed, from crates/yinqocha/out of its repository. Without its default feature `link` it links
//! nothing, and the program that uses it brings the archive.

#![no_std]
#![deny(missing_docs, unsafe_code)]
#![deny(
    clippy::arithmetic_side_effects,
    clippy::expect_used,
    clippy::indexing_slicing,
    clippy::panic,
    clippy::string_slice,
    clippy::todo,
    clippy::unimplemented,
    clippy::unreachable,
    clippy::unwrap_used
)]

mod bench;
mod benches;
mod calls;
mod checked;
#[allow(unsafe_code)]
pub mod door;
mod fault;
mod fields;
mod planned;
mod sheet;
mod table;

pub use bench::Bench;
pub use benches::{Benches, BenchesIter};
pub use checked::{Comparison, PageCheck, PlanCheck, SetCheck};
pub use fault::{Call, Fault};
pub use fields::{Head, Job, Share};
pub use planned::{Best, Plan, Refusal};
pub use sheet::Sheet;

/// The most benches of a sheet.
pub const MAX_BENCHES: usize = 64;
/// The most jobs of a sheet.
pub const MAX_JOBS: usize = 512;
/// The most that either number of a share may be.
pub const MAX_SHARE: u64 = 127;
/// The highest target in minutes, 2^30 - 1.
pub const MAX_TARGET: u64 = 1_073_741_823;
/// The most minutes of a job and of a booking, 2^20 - 1.
pub const MAX_MINUTES: u64 = 1_048_575;
/// The most bytes of a sheet that is read. Who takes one from a file makes room for one byte more,
/// so that a longer file is a fault and not a sheet that was cut.
pub const MAX_SHEET_BYTES: usize = 65_536;
/// The most bytes of a sheet that is written.
pub const MAX_WRITTEN_BYTES: usize = 7_629;

//! Cores with fair task queues, whose jobs the host runs: safe calls over libfairexec.a. It uses nothing but std.
//!
//! ```
//! use fairexec::{House, Job, Step, Turn};
//!
//! let mut house = House::open(64)?;
//! let background = house.create(100)?;
//! let mut runs = 0;
//! let job = Job::new(move |cx| {
//!     runs += 1;
//!     if runs < 3 { Step::Yield } else { Step::Done }
//! });
//! house.submit(background, job).map_err(|(error, _)| error)?;
//! while !matches!(house.turn()?, Turn::Idle) {}
//! assert_eq!(house.stats_of(background)?.picks, 3);
//! # Ok::<(), fairexec::Error>(())
//! ```
//!
//! - [`Core`]: a core whose jobs are numbers.
//! - [`House`]: a core that keeps its jobs, which are of any type; [`Job`] is a closure.
//! - [`Tasks`]: a house whose jobs are futures.
//! - [`Timers`]: jobs that sleep until a time. A house has them by [`House::open_timers`], and a linked core by [`linked::Core::open_timers`].
//! - [`linked`]: cores on threads of their own, with links between them, and an outside actor.

mod clock;
mod core;
mod error;
mod house;
pub mod linked;
pub mod raw;
mod stats;
mod tasks;
mod timers;

pub use crate::clock::{wall_clock, Clock};
pub use crate::core::{Core, Mode, Next, Settled, Step};
pub use error::Error;
pub use stats::{CoreStats, QueueStats};
pub use house::{Cx, House, Job, Turn};
pub use tasks::{again, Tasks};
pub use timers::Timers;

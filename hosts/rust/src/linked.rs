//! A house: cores on threads of their own, with links between them, and an outside actor.
//!
//! ```
//! use fairexec::linked::{Config, House, Job, Outcome, Step};
//!
//! let (house, cores, mut outside) = House::open(&Config { cores: 2, ..Config::default() })?;
//! let threads: Vec<_> = cores
//!     .into_iter()
//!     .map(|mut core| std::thread::spawn(move || core.run_jobs().map(|()| core)))
//!     .collect();
//! let ticket = outside.submit(1, 0, Job::new(|_| Step::Done(42))).map_err(|(error, _)| error)?;
//! assert!(matches!(outside.wait_for(&ticket)?, Outcome::Done(42)));
//! outside.close_all(fairexec::Mode::Finish)?;
//! let cores = threads.into_iter().map(|it| it.join().expect("a core ends")).collect::<Result<_, _>>()?;
//! assert!(house.end(cores, outside).map_err(|(error, ..)| error)?.audit()?.is_sound);
//! # Ok::<(), fairexec::Error>(())
//! ```
//!
//! - [`House`] opens the cores and the outside actor, and takes them back at the end: [`Journals`] has the notes of all, and their audit.
//! - [`Core`] runs jobs of any type, by [`Core::run_turn`], [`Core::round`] or [`Core::run`]. [`Job`] is a closure. [`Outside`] only submits.
//! - [`Callers`] gives handles on the outside actor, for any threads.
//! - A job may submit to any core by its [`Cx`]. A submission has a [`Ticket`], by which its [`Outcome`] is asked for.
//! - What becomes of notes, [`Journal`] says. Without it a house lives for as many notes as its journals have room for.
//! - A core that has nothing to do sleeps, or waits by the host's own means: [`Core::wait_by`], [`Core::set_bell`].
//! - Any thread reads the counts of a core by [`Stats`]. A core that is dropped before its end hands back its jobs.
//! - A job sleeps until a time by its [`Cx`], once its core has timers: [`Core::open_timers`].
//! - [`Task`] is a job that is a future: [`spawn`] starts one on any core, and [`spawn_local`] one that isn't `Send` on its own.

mod actor;
mod board;
mod callers;
mod core;
mod cx;
mod fresh;
mod futures;
mod house;
mod jobs;
mod lanes;
mod names;
mod notes;
mod outside;
mod runs;
mod seat;
mod sleepers;
mod submissions;
mod tasks;
mod waiters;

pub use actor::Ticket;
pub use board::Stats;
pub use callers::{Caller, CallerTicket, Callers};
pub use core::Core;
pub use cx::Cx;
pub use futures::{Cancelled, Join};
pub use house::{Config, Ended, House, Journals, Opened, Verdict};
pub use jobs::Job;
pub use lanes::Ringer;
pub use names::{Answer, Name, Outcome, Reason, Step, Turn};
pub use notes::{Form, Journal, NoteCounts};
pub use outside::Outside;
pub use tasks::{spawn, spawn_local, yield_now, Task};

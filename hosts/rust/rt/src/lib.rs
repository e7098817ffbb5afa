//! An async runtime, one executor a core. Its task queues, picks, charges, links and closes are those of the library fairexec, which is proved.
//!
//! ```
//! use fairexec_rt::{spawn_local, submit, Executor, Queue};
//!
//! const COMPACTION: Queue = Queue::new(1);
//! let report = Executor::builder()
//!     .cores(2)
//!     .queue("requests", 1000)
//!     .queue("compaction", 100)
//!     .run(|here| async move {
//!         let sum = spawn_local(COMPACTION, async { 20 + 1 }).await.expect("nobody aborts it");
//!         // The other core doubles it. Who is called may have a future of its own, which needn't be `Send`.
//!         let other = (here.core() + 1) % here.cores();
//!         assert_eq!(submit(other, Queue::FIRST, move || async move { 2 * sum }).await.unwrap(), 42);
//!     })?;
//! assert_eq!(report.cores.len(), 2);
//! # Ok::<(), fairexec_rt::Error>(())
//! ```
//!
//! A core runs one task at a time. The first task of the queue of least virtual runtime is next, so queues that have work get time by their
//! shares. A task that can't go on isn't in the core: its waker hands it in again, so any number of tasks may wait.
//!
//! - [`Executor::builder`] says how many cores and which queues there are, and what becomes of the journals. [`Builder::run`] starts a future on
//!   each core, and answers a [`Report`].
//! - [`spawn_local`] starts a task on this core, [`submit`] and [`try_submit`] call another one.
//! - [`sleep`], [`timeout`], [`interval`]; [`yield_now`], [`yield_if_needed`] and [`ran_for`] for tasks that compute.
//! - [`net`] and [`fs`]; [`chan`]; [`signal`].
//! - [`stop`] and [`stopping`]; [`set_shares`]; [`stats`]; [`Handle`] for other threads.
//!
//! docs/SERVERS.md begins with `cargo new`, and says what of a server is proved.

mod appender;
mod barrier;
mod builder;
mod call;
pub mod chan;
mod drive;
mod error;
mod first;
pub mod fs;
mod journal;
mod local;
mod log;
pub mod net;
mod own;
mod pin;
mod reactor;
mod reads;
mod report;
mod root;
mod shared;
pub mod signal;
mod slice;
mod stop;
mod streams;
mod task;
mod time;
mod unix;

pub use builder::{Builder, Executor, Here, SlowPoll};
pub use call::{submit, try_submit, Call, CallError, Full};
pub use error::Error;
pub use journal::Journal;
pub use pin::Pin;
pub use report::{CoreStats, QueueStats, Report};
pub use root::Termination;
pub use shared::{Handle, Queue};
pub use slice::{ran_for, yield_if_needed, yield_now};
pub use stop::{set_shares, stats, stop, stopping, Stopping};
pub use task::{spawn_local, JoinError, JoinHandle};
pub use time::{interval, sleep, sleep_until, timeout, Elapsed, Interval, Sleep};

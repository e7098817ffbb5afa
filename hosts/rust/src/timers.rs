//! Timers: jobs that park until a time.

use crate::core::check_version;
use crate::error::{refused, Error};
use crate::raw;
use std::time::Duration;

/// The time that is no time: a job that parks until then is parked until it is woken.
pub(crate) const NEVER: u64 = raw::FX_NEVER;

/// The timers of the jobs of one core: jobs that park until a time. A host opens them for each core whose jobs sleep, and uses them with that core
/// alone.
///
/// Times are numbers of the host's clock, in any unit. A job has one timer at most. It goes when its time comes, when the next run of its job is
/// settled by [`Core::settle_until`], or with these timers. A [`House`] keeps timers of its own.
///
/// ```
/// use fairexec::{Core, Next, Settled, Step, Timers};
///
/// let (mut core, mut timers) = (Core::open(4)?, Timers::new(4)?);
/// core.submit(0, 7)?;
/// assert_eq!(core.next_job()?, Next::Start(7));
/// // It sleeps until 500.
/// assert_eq!(core.settle_until(&mut timers, Step::Park, 1, Some(500))?, Settled::Parked);
/// assert_eq!(timers.next_time(), Some(500));
/// assert!(!core.wake_due(&mut timers, 499)?);
/// assert_eq!(core.next_job()?, Next::Idle);
/// while core.wake_due(&mut timers, 500)? {}
/// assert_eq!(core.next_job()?, Next::Resume(7));
/// assert_eq!(core.settle_until(&mut timers, Step::Done, 1, None)?, Settled::Done);
/// assert_eq!(timers.next_time(), None);
/// # Ok::<(), fairexec::Error>(())
/// ```
///
/// Like a core they aren't `Send`: they are opened on the thread of their core. They aren't `Sync` either. They are freed as they are dropped. Jobs
/// that sleep then stay parked until they are woken.
///
/// ```compile_fail,E0277
/// fn is_send<T: Send>() {}
/// is_send::<fairexec::Timers>();
/// ```
///
/// ```compile_fail,E0277
/// fn is_sync<T: Sync>() {}
/// is_sync::<fairexec::Timers>();
/// ```
///
/// [`Core::settle_until`]: crate::Core::settle_until
/// [`House`]: crate::House
pub struct Timers {
    handle: raw::fx_timers,
}

// In each call below the handle is that of open timers and of this value alone, `&mut self` keeps a second call away, and every pointer is to a local
// value that outlives the call.
impl Timers {
    /// Opens timers for so many jobs, 1 to 131070: as many as the core may hold. It asks for memory, 80 bytes a job. No other call on timers does.
    ///
    /// # Errors
    ///
    /// `BadNumber`, `NoMemory`.
    ///
    /// # Panics
    ///
    /// If the library that was linked has another version than these declarations.
    pub fn new(jobs: u32) -> Result<Timers, Error> {
        check_version();
        let mut handle = raw::fx_timers { at: std::ptr::null_mut() };
        // SAFETY: the handle is empty, and lives through the call.
        refused(unsafe { raw::fx_timers_open(&mut handle, jobs) })?;
        Ok(Timers { handle })
    }

    /// When the next timer is due, if one is set. Until then a host that has nothing else to do may sleep.
    pub fn next_time(&mut self) -> Option<u64> {
        let mut time = 0;
        // SAFETY: as above.
        match unsafe { raw::fx_next_time(&mut self.handle, &mut time) } {
            raw::FX_IDLE => None,
            code => {
                assert_eq!(code, raw::FX_OK);
                Some(time)
            }
        }
    }

    /// The handle of open timers, for calls on their core.
    #[inline]
    pub(crate) fn handle(&mut self) -> &mut raw::fx_timers {
        &mut self.handle
    }
}

impl Drop for Timers {
    fn drop(&mut self) {
        // SAFETY: as above, and nobody uses the handle any more.
        unsafe { raw::fx_timers_free(&mut self.handle) };
    }
}

/// The timers of a core that keeps its jobs.
pub(crate) struct Sleepers {
    pub(crate) timers: Timers,
    // No timer is due before this. That of a job that ran goes without a look, so the next one may be due later.
    next: u64,
}

impl Sleepers {
    pub(crate) fn open(jobs: u32) -> Result<Sleepers, Error> {
        Ok(Sleepers { timers: Timers::new(jobs)?, next: NEVER })
    }

    /// A job sleeps until this time.
    #[inline]
    pub(crate) fn set(&mut self, time: u64) {
        self.next = self.next.min(time);
    }

    /// The time now, if a timer may be due. Where none is set the clock isn't asked.
    #[inline]
    pub(crate) fn due_now(&self, clock: impl FnOnce() -> u64) -> Option<u64> {
        (self.next != NEVER).then(clock).filter(|now| *now >= self.next)
    }

    /// No timer is due any more, or one stays that is.
    pub(crate) fn look(&mut self) {
        self.next = self.timers.next_time().unwrap_or(NEVER);
    }

    /// How long it is until a timer may be due, if one is set.
    pub(crate) fn left(&self, clock: impl FnOnce() -> u64) -> Option<Duration> {
        (self.next != NEVER).then(|| Duration::from_nanos(self.next.saturating_sub(clock())))
    }
}

/// The time behind so much time, or no time if no clock comes to it.
pub(crate) fn after(now: u64, time: Duration) -> u64 {
    now.saturating_add(u64::try_from(time.as_nanos()).unwrap_or(NEVER))
}

//! What all actors of a house share: where the jobs stand, and the bells of those that sleep.

use super::names::Name;
use std::cell::UnsafeCell;
use std::collections::VecDeque;
use std::mem::needs_drop;
use std::sync::atomic::{AtomicBool, AtomicU32, AtomicU64, Ordering};
use std::sync::{Arc, Condvar, Mutex, MutexGuard, OnceLock, PoisonError};
use std::time::Duration;

/// A sleeper looks again after this. No clause says that a link shows at once what the other end did.
pub(super) const LONGEST_SLEEP: Duration = Duration::from_millis(10);

fn lock<T>(of: &Mutex<T>) -> MutexGuard<'_, T> {
    of.lock().unwrap_or_else(PoisonError::into_inner)
}

/// The place of a job that one actor submitted to one core. The library knows the job by the number of its place.
///
/// A place goes with its job, without a lock. First the sender alone has it. An order that was accepted hands it to the core, which has it from
/// each run that the library tells until it settles that run. An outcome that was redeemed hands it back.
///
/// A job runs where it stands. One that is done and has nothing to drop is left there: the core reads its place alone, so no line of a cache goes
/// back to the sender for it.
struct Place<J>(UnsafeCell<Option<J>>);

/// Rung where an actor that sleeps has something to do. Each stands on lines of a cache of its own, since others look at it at each submission.
#[derive(Default)]
#[repr(align(128))]
pub(super) struct Bell {
    sleeps: AtomicBool,
    // A bit for each actor that submits to this core. It doesn't look at the links of others.
    senders: AtomicU32,
    // Whether this core was dropped.
    has_left: AtomicBool,
    rung: Mutex<bool>,
    rings: Condvar,
    // What is called in place of the condition variable, if the host waits by its own means.
    ringer: OnceLock<Box<dyn Fn() + Send + Sync>>,
    // The tasks of this core whose wakers were called, and to whom no wake was sent yet.
    woken: Mutex<VecDeque<Name>>,
}

impl Bell {
    /// Tells the actor that there is something to do. [`Lanes::wait_by`] says why no ring is lost.
    #[inline]
    pub(super) fn ring(&self) {
        if self.sleeps.load(Ordering::SeqCst) {
            self.rouse();
        }
    }

    #[cold]
    fn rouse(&self) {
        if let Some(rings) = self.ringer.get() {
            // One ring ends a wait, so the second of two that ring at once is spared.
            if self.sleeps.swap(false, Ordering::SeqCst) {
                rings();
            }
            return;
        }
        *lock(&self.rung) = true;
        self.rings.notify_one();
    }

    /// Whoever rings calls this from now on. Only the first one counts.
    pub(super) fn set_ringer(&self, rings: Box<dyn Fn() + Send + Sync>) {
        let _ = self.ringer.set(rings);
    }

    /// Tells that the core was dropped.
    pub(super) fn leave(&self) {
        self.has_left.store(true, Ordering::SeqCst);
    }

    /// Tells the core that the waker of this task was called.
    pub(super) fn list(&self, name: Name) {
        lock(&self.woken).push_back(name);
        self.ring();
    }

    /// The task whose waker was called first. It is told until `forget_first`, which the core calls once it sent the wake.
    pub(super) fn first_woken(&self) -> Option<Name> {
        lock(&self.woken).front().copied()
    }

    pub(super) fn forget_first(&self) {
        lock(&self.woken).pop_front();
    }
}

/// Rings for one core of a house, from any thread. It is cheap to clone.
///
/// ```
/// use fairexec::linked::{Config, House, Job};
/// use std::{sync::mpsc, thread};
///
/// let (_house, mut cores, _outside) = House::<Job>::open(&Config::default())?;
/// let (rings, hears) = mpsc::channel();
/// cores[0].set_bell(move || rings.send(()).expect("it is heard"));
/// let (ringer, (gives, has)) = (cores[0].ringer(), mpsc::channel());
/// let other = thread::spawn(move || {
///     // First what there is to do, and then the ring.
///     gives.send(42).expect("it is taken");
///     ringer.ring();
/// });
/// let mut found = None;
/// while found.is_none() {
///     let looks = || {
///         found = has.try_recv().ok();
///         found.is_some()
///     };
///     cores[0].wait_by(looks, |longest| hears.recv_timeout(longest).ok());
/// }
/// other.join().expect("it ends");
/// # Ok::<(), fairexec::Error>(())
/// ```
#[derive(Clone)]
pub struct Ringer {
    bells: Arc<[Bell]>,
    core: u32,
}

impl Ringer {
    pub(super) fn new(bells: &Arc<[Bell]>, core: u32) -> Ringer {
        Ringer { bells: Arc::clone(bells), core }
    }

    /// Tells the core that there is something to do: it doesn't wait any longer. What there is to do stands where the core looks before it
    /// waits, and was put there before this call.
    #[inline]
    pub fn ring(&self) {
        self.bells[self.core as usize].ring();
    }
}

/// The places of a house, a lane of them from each actor to each core, and a bell for each actor.
pub(super) struct Lanes<J> {
    house: u64,
    cores: u32,
    places: u32,
    lanes: Vec<Box<[Place<J>]>>,
    // Wakers have them, too. They have no jobs, so neither keeps the other, and who calls a waker drops no job.
    bells: Arc<[Bell]>,
}

// SAFETY: each place is one actor's at a time, by the rule of its type. The library hands orders and outcomes over by sequentially consistent
// atomics, so what the one actor did to a place is done before the other has it.
unsafe impl<J: Send> Sync for Lanes<J> {}

impl<J> Lanes<J> {
    pub(super) fn new(cores: u32, places: u32) -> Lanes<J> {
        static HOUSES: AtomicU64 = AtomicU64::new(0);
        let lane = |_| (0..Self::room(places)).map(|_| Place(UnsafeCell::new(None))).collect();
        Lanes {
            house: HOUSES.fetch_add(1, Ordering::Relaxed),
            cores,
            places,
            lanes: (0..cores * (cores + 1)).map(lane).collect(),
            bells: (0..=cores).map(|_| Bell::default()).collect(),
        }
    }

    /// A lane has room for one job more than its link, so that the link judges.
    pub(super) fn room(places: u32) -> u32 {
        places + 1
    }

    /// Which house it is, of all that this process opens.
    pub(super) fn house(&self) -> u64 {
        self.house
    }

    pub(super) fn cores(&self) -> u32 {
        self.cores
    }

    /// How many submissions of a link may be outstanding.
    pub(super) fn places(&self) -> u32 {
        self.places
    }

    /// Tells that an order is about to be submitted over this link.
    pub(super) fn use_link(&self, from: u32, to: u32) {
        self.bells[to as usize].senders.fetch_or(1 << from, Ordering::SeqCst);
    }

    /// Whether that was told. Who sees an order of a link sees this, too.
    #[inline]
    pub(super) fn is_used(&self, from: u32, to: u32) -> bool {
        self.bells[to as usize].senders.load(Ordering::SeqCst) & 1 << from != 0
    }

    #[inline]
    fn place(&self, from: u32, to: u32, place: u32) -> *mut Option<J> {
        self.lanes[(from * self.cores + to) as usize][place as usize].0.get()
    }

    /// Puts a job into its place.
    ///
    /// # Safety
    ///
    /// The caller is the actor that has the place.
    #[inline]
    pub(super) unsafe fn put(&self, from: u32, to: u32, place: u32, job: J) {
        // SAFETY: nobody else reads or writes it now. What stands there is no job, or one that has nothing to drop.
        unsafe { *self.place(from, to, place) = Some(job) };
    }

    /// Takes a job out of its place.
    ///
    /// # Safety
    ///
    /// The caller is the actor that has the place.
    #[inline]
    pub(super) unsafe fn take(&self, from: u32, to: u32, place: u32) -> Option<J> {
        // SAFETY: nobody else reads or writes it now.
        unsafe { (*self.place(from, to, place)).take() }
    }

    /// The same for a job that is done, if it has something to drop.
    ///
    /// # Safety
    ///
    /// The caller is the actor that has the place.
    #[inline]
    pub(super) unsafe fn take_done(&self, from: u32, to: u32, place: u32) -> Option<J> {
        if !needs_drop::<J>() {
            return None;
        }
        // SAFETY: as the caller says.
        unsafe { self.take(from, to, place) }
    }

    /// A job where it stands.
    ///
    /// # Safety
    ///
    /// The caller is the actor that has the place, for as long as it uses this, and while it does it calls nothing else of this place. The lanes
    /// stay so long.
    #[inline]
    pub(super) unsafe fn standing<'a>(&self, from: u32, to: u32, place: u32) -> Option<&'a mut J> {
        // SAFETY: nobody else reads or writes it until then.
        unsafe { (*self.place(from, to, place)).as_mut() }
    }

    /// The bells of all actors, by their numbers.
    pub(super) fn bells(&self) -> &Arc<[Bell]> {
        &self.bells
    }

    /// Tells this actor that there is something to do.
    #[inline]
    pub(super) fn ring(&self, actor: u32) {
        self.bells[actor as usize].ring();
    }

    /// Whether this core was dropped: nobody runs its jobs any more.
    pub(super) fn has_left(&self, core: u32) -> bool {
        self.bells[core as usize].has_left.load(Ordering::SeqCst)
    }

    /// Calls `wait` with how long it may wait, so long at most: no time if a waker was called, the seat shows something or `looks` finds something to do.
    ///
    /// Flag, look, sleep. The sleeper sets its flag, then looks, then waits. Who has something for it puts that where the sleeper looks, then
    /// reads the flag, and rings if it is set. All four are sequentially consistent, so they have one order. If the flag was set before it was
    /// read, the other one rings, and a ringer that is kept until it is heard, as an eventfd is, ends also a wait that begins behind it. Else
    /// the flag was read before it was set, so what was put there stands before the look, which finds it. Either way nothing is slept over.
    ///
    /// That a link shows at once what was put there is no clause, so a wait isn't longer than `LONGEST_SLEEP`.
    pub(super) fn wait_by<T>(&self, actor: u32, longest: Duration, looks: impl FnOnce() -> bool, wait: impl FnOnce(Duration) -> T) -> T {
        let bell = &self.bells[actor as usize];
        bell.sleeps.store(true, Ordering::SeqCst);
        let is_idle = lock(&bell.woken).is_empty() && !looks();
        let told = wait(if is_idle { longest.min(LONGEST_SLEEP) } else { Duration::ZERO });
        bell.sleeps.store(false, Ordering::SeqCst);
        told
    }

    /// Sleeps until the bell of this actor is rung, for so long at most, unless a waker was called or its seat shows something.
    pub(super) fn sleep(&self, actor: u32, longest: Duration, shows: impl FnOnce() -> bool) {
        let bell = &self.bells[actor as usize];
        bell.sleeps.store(true, Ordering::SeqCst);
        if lock(&bell.woken).is_empty() && !shows() {
            let rung = lock(&bell.rung);
            let (mut rung, _) = bell.rings.wait_timeout_while(rung, longest.min(LONGEST_SLEEP), |rung| !*rung).unwrap_or_else(PoisonError::into_inner);
            *rung = false;
        }
        bell.sleeps.store(false, Ordering::SeqCst);
    }
}

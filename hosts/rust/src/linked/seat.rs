//! A seat of a house: the calls of the library, without the jobs.

use super::names::{Name, Step};
use super::notes::{counts, Form, Journal, Newest, NoteCounts, Passed, MOST, PIECE};
use crate::core::Mode;
use crate::error::{refused, Error};
use crate::raw;
use crate::stats::{CoreStats, QueueStats};
use std::cell::Cell;
use std::sync::atomic::{AtomicU64, Ordering};

/// What comes next, with the host's number of a job.
pub(super) enum Next {
    /// Queue and job, and whether it is the first run of that.
    Run(Name, u32, u32, bool),
    Back(Name),
    Idle,
}

/// What became of the job of a settled run.
#[derive(PartialEq, Eq)]
pub(super) enum Settled {
    Queued,
    Parked,
    Done,
}

impl Settled {
    #[inline]
    pub(super) fn of(code: u32) -> Result<Settled, Error> {
        match code {
            raw::FX_OK => Ok(Settled::Queued),
            raw::FX_PARKED => Ok(Settled::Parked),
            raw::FX_DONE => Ok(Settled::Done),
            code => Err(Error::of(code)),
        }
    }
}

/// What became of a submission, with the host's number of a job.
pub(super) enum Told {
    Done(u64),
    Back(u32, u32),
    Answered(u32, u32),
}

/// Who takes the notes that a seat hands on.
struct Keeper {
    takes: Box<dyn FnMut(&[u8]) + Send>,
    // What went on and isn't taken yet, or since `takes` panicked, and of how many notes it is.
    text: Vec<u8>,
    notes: u64,
}

/// Behind so many calls that make notes, those that are kept are counted.
const CALLS: u32 = 256;

/// Behind so many, if not all notes went on that should. They make fewer notes than go on at once.
const AGAIN: u32 = 16;

/// A seat that was taken. It is freed as it is dropped.
pub(super) struct Seat {
    pub(super) handle: raw::fx_seat,
    // What becomes of notes, and the newest of those that were forgotten.
    journal: Journal,
    newest: Newest,
    // Whoever takes the notes, before that, and how far they went on.
    keeper: Option<Keeper>,
    passed: Passed,
    // The notes are counted behind so many more calls.
    left: u32,
    // The thread that used the seat last. The library asks that a lock, the start or the join of a thread, or a sequentially consistent atomic
    // stands between two calls on different threads. A channel may hand a value over by less. So another thread begins with such an atomic,
    // which finds what the last one left behind its calls.
    user: AtomicU64,
}

// SAFETY: the handle is of this seat alone, `&mut self` keeps a second call away, and an exchange of `user` stands between calls on different
// threads.
unsafe impl Send for Seat {}

/// A number of this thread, which no other has.
#[inline]
pub(super) fn this_thread() -> u64 {
    static THREADS: AtomicU64 = AtomicU64::new(0);
    thread_local! {
        static NUMBER: Cell<u64> = const { Cell::new(0) };
    }
    NUMBER.with(|number| {
        if number.get() == 0 {
            number.set(THREADS.fetch_add(1, Ordering::Relaxed) + 1);
        }
        number.get()
    })
}

// In each call below the handle is that of an open seat and of this `Seat` alone, and every pointer is to a local value that outlives the call.
// The calls of one thread stand between `enter` and `leave`.
impl Seat {
    /// The next seat of a house, with its number.
    pub(super) fn take(house: &mut raw::fx_house, journal: Journal, form: Form) -> Result<(u32, Seat), Error> {
        let handle = raw::fx_seat { at: std::ptr::null_mut() };
        let (newest, passed) = (Newest::default(), Passed::new(form));
        let mut seat = Seat { handle, journal, newest, keeper: None, passed, left: CALLS, user: AtomicU64::new(0) };
        let mut actor = 0;
        seat.enter();
        // SAFETY: the house is open, and the seat is empty.
        refused(unsafe { raw::fx_house_take(house, &mut seat.handle, &mut actor) })?;
        seat.leave();
        Ok((actor, seat))
    }

    /// Stands before the calls of a thread.
    #[inline]
    pub(super) fn enter(&self) {
        let thread = this_thread();
        if self.user.load(Ordering::Relaxed) != thread {
            self.user.swap(thread, Ordering::SeqCst);
        }
    }

    /// Stands behind them, for the thread that finds it.
    #[inline]
    pub(super) fn leave(&self) {
        self.user.store(self.user.load(Ordering::Relaxed), Ordering::Release);
    }

    /// Whether its journal went to its house.
    pub(super) fn has_ended(&self) -> bool {
        self.handle.at.is_null()
    }

    /// Hands the journal of this seat to its house, if it didn't before.
    pub(super) fn end(&mut self, house: &mut raw::fx_house) -> Result<(), Error> {
        if self.has_ended() {
            return Ok(());
        }
        self.enter();
        // Else some notes would be in a part and with the house.
        if self.passed.is_between() {
            self.hand_on(false)?;
        }
        // SAFETY: the house is open, and the seat is of it.
        refused(unsafe { raw::fx_house_end(house, &mut self.handle) })
    }

    /// A call that makes notes.
    #[inline]
    pub(super) fn call(&mut self, mut call: impl FnMut(&mut raw::fx_seat) -> u32) -> u32 {
        self.left -= 1;
        if self.left == 0 {
            self.look();
        }
        let code = call(&mut self.handle);
        // If the notes are gone, the journal is as good as new.
        if code == raw::FX_JOURNAL_FULL && self.hand_on(false).is_ok() {
            return call(&mut self.handle);
        }
        code
    }

    /// Lets notes go before the journal is full: as soon as there is a piece of them, or half of the room if the newest of them stay. A journal of few
    /// notes, or one that is kept, waits until it is full.
    ///
    /// No call of this copies more notes than one call of the library may. Where notes are left it comes again before there are half as many more.
    #[cold]
    fn look(&mut self) {
        self.left = CALLS;
        let Ok(NoteCounts { kept, free }) = self.counts() else { return };
        if kept + free < 2 * PIECE {
            return;
        }
        // What isn't taken now is the next time.
        let _ = match (self.keeper.is_some(), self.journal) {
            (true, _) if self.passed.is_between() || self.passed.has_piece(kept) => self.hand_on(true),
            (false, Journal::Forget) if kept >= PIECE => self.hand_on(true),
            (false, Journal::Last(most)) if kept >= free && self.newest.is_near(u64::from(most), kept) => self.hand_on(true),
            (false, Journal::Last(most)) => self.newest.follow(&mut self.handle, u64::from(most), kept, (kept + free) / 2),
            _ => Ok(()),
        };
        if self.passed.is_between() || self.newest.is_behind(kept) {
            self.left = AGAIN;
        }
    }

    /// From now on notes go to whoever takes them, behind those that who took them before didn't take.
    pub(super) fn keep_notes_by(&mut self, takes: Box<dyn FnMut(&[u8]) + Send>) {
        let (text, notes) = self.keeper.take().map_or_else(|| (Vec::new(), 0), |it| (it.text, it.notes));
        self.keeper = Some(Keeper { takes, text, notes });
    }

    /// Copies notes for whoever takes them, all or as many as one call of the library may, or forgets them, if they don't stay. He takes them once all are
    /// copied, or many. A panic leaves what was written where it is: it goes first the next time.
    #[cold]
    fn hand_on(&mut self, is_short: bool) -> Result<(), Error> {
        if let Some(Keeper { takes, text, notes }) = &mut self.keeper {
            *notes += self.passed.pass_on(&mut self.handle, text, is_short)?;
            if !self.passed.is_between() || *notes >= MOST {
                takes(text);
                text.clear();
                *notes = 0;
            }
            return Ok(());
        }
        match self.journal {
            Journal::Keep => Err(Error::JournalFull),
            Journal::Forget => self.passed.forget(&mut self.handle).map(|_| ()),
            Journal::Last(most) => self.newest.roll(&mut self.handle, &mut self.passed, u64::from(most)),
        }
    }

    /// From now on notes go nowhere, and nobody takes them.
    pub(super) fn forget_all(&mut self) {
        (self.journal, self.keeper) = (Journal::Forget, None);
    }

    pub(super) fn counts(&mut self) -> Result<NoteCounts, Error> {
        counts(&mut self.handle)
    }

    /// Forgets what is kept, and what stayed of the ones before: no note is missed between those that stay.
    pub(super) fn forget(&mut self) -> Result<u64, Error> {
        self.newest = Newest::default();
        self.passed.forget(&mut self.handle)
    }

    pub(super) fn newest(&mut self, most: u64, text: &mut Vec<u8>) -> Result<u64, Error> {
        self.newest.tell(&mut self.handle, most, text)
    }

    /// Puts the notes that the journal keeps behind these bytes, and before them what wasn't taken.
    pub(super) fn pass_on(&mut self, text: &mut Vec<u8>) -> Result<(), Error> {
        let (mut none, mut zero) = (Vec::new(), 0);
        let (untaken, notes) = self.keeper.as_mut().map_or((&mut none, &mut zero), |it| (&mut it.text, &mut it.notes));
        self.passed.pass_on(&mut self.handle, untaken, false)?;
        text.append(untaken);
        *notes = 0;
        self.newest = Newest::default();
        Ok(())
    }

    /// A call that tells the name of a submission.
    #[inline]
    fn named(&mut self, mut call: impl FnMut(&mut raw::fx_seat, &mut raw::fx_name) -> u32) -> Result<Name, Error> {
        let mut name = raw::fx_name::default();
        refused(self.call(|it| call(it, &mut name)))?;
        Ok(Name::of(&name))
    }

    #[inline]
    pub(super) fn next(&mut self) -> Result<Next, Error> {
        let mut turn = raw::fx_turn { size: size_of::<raw::fx_turn>() as u32, ..raw::fx_turn::default() };
        // SAFETY: as above.
        match self.call(|it| unsafe { raw::fx_seat_next(it, &mut turn) }) {
            code @ (raw::FX_START | raw::FX_RESUME) => Ok(Next::Run(Name::of(&turn.name), turn.queue, turn.job as u32, code == raw::FX_START)),
            raw::FX_BACK => Ok(Next::Back(Name::of(&turn.name))),
            raw::FX_IDLE => Ok(Next::Idle),
            code => Err(Error::of(code)),
        }
    }

    #[inline]
    pub(super) fn settle(&mut self, step: Step, spent: u64) -> Result<Settled, Error> {
        let (step, answer) = step.numbers();
        // SAFETY: as above.
        Settled::of(unsafe { raw::fx_seat_settle(&mut self.handle, step, answer, spent) })
    }

    /// Whether there was an order.
    #[inline]
    pub(super) fn deliver(&mut self, sender: u32) -> Result<bool, Error> {
        // SAFETY: as above.
        match self.call(|it| unsafe { raw::fx_seat_deliver(it, sender) }) {
            raw::FX_IDLE => Ok(false),
            code => refused(code).map(|()| true),
        }
    }

    #[inline]
    pub(super) fn collect(&mut self, core: u32) -> Result<u64, Error> {
        let mut count = 0;
        // SAFETY: as above.
        refused(self.call(|it| unsafe { raw::fx_seat_collect(it, core, &mut count) }))?;
        // Each outcome is a note, and another call makes some four.
        self.left = self.left.saturating_sub(count as u32 / 4).max(1);
        Ok(count)
    }

    /// Puts the names of the outcomes of the last collection behind these, in the order in which they came. So many they were, and no call that
    /// makes notes came behind it.
    pub(super) fn came(&mut self, count: u64, names: &mut Vec<Name>) -> Result<(), Error> {
        let NoteCounts { kept, .. } = self.counts()?;
        for place in kept - count..kept {
            let mut name = raw::fx_name::default();
            // SAFETY: as above.
            refused(unsafe { raw::fx_seat_came(&mut self.handle, place, &mut name) })?;
            names.push(Name::of(&name));
        }
        Ok(())
    }

    /// The number of the submission. Who submits knows the rest of its name.
    #[inline]
    pub(super) fn submit(&mut self, to: u32, queue: u32, job: u32) -> Result<u64, Error> {
        let mut name = raw::fx_name::default();
        // SAFETY: as above.
        refused(self.call(|it| unsafe { raw::fx_seat_submit(it, to, queue, u64::from(job), &mut name) }))?;
        Ok(name.number)
    }

    pub(super) fn create(&mut self, to: u32, shares: u32) -> Result<Name, Error> {
        // SAFETY: as above.
        self.named(|it, name| unsafe { raw::fx_seat_create(it, to, shares, name) })
    }

    pub(super) fn set_shares(&mut self, to: u32, queue: u32, shares: u32) -> Result<Name, Error> {
        // SAFETY: as above.
        self.named(|it, name| unsafe { raw::fx_seat_set_shares(it, to, queue, shares, name) })
    }

    pub(super) fn close_queue(&mut self, to: u32, queue: u32, mode: Mode) -> Result<Name, Error> {
        // SAFETY: as above.
        self.named(|it, name| unsafe { raw::fx_seat_close_queue(it, to, queue, mode.number(), name) })
    }

    pub(super) fn close_core(&mut self, to: u32, mode: Mode) -> Result<Name, Error> {
        // SAFETY: as above.
        self.named(|it, name| unsafe { raw::fx_seat_close_core(it, to, mode.number(), name) })
    }

    pub(super) fn wake(&mut self, job: Name) -> Result<Name, Error> {
        let job = job.raw();
        // SAFETY: as above.
        self.named(|it, name| unsafe { raw::fx_seat_wake(it, &job, name) })
    }

    #[inline]
    pub(super) fn redeem(&mut self, name: Name) -> Result<Told, Error> {
        let name = name.raw();
        let mut outcome = raw::fx_outcome { size: size_of::<raw::fx_outcome>() as u32, ..raw::fx_outcome::default() };
        // SAFETY: as above.
        refused(self.call(|it| unsafe { raw::fx_seat_redeem(it, &name, &mut outcome) }))?;
        Ok(match outcome.kind {
            raw::FX_KIND_DONE => Told::Done(outcome.answer),
            raw::FX_KIND_BACK => Told::Back(outcome.why, outcome.job as u32),
            _ => Told::Answered(outcome.why, outcome.queue),
        })
    }

    pub(super) fn detach(&mut self, name: Name) -> Result<(), Error> {
        let name = name.raw();
        // SAFETY: as above.
        refused(self.call(|it| unsafe { raw::fx_seat_detach(it, &name) }))
    }

    pub(super) fn close(&mut self, mode: Mode) -> Result<(), Error> {
        // SAFETY: as above.
        refused(self.call(|it| unsafe { raw::fx_seat_close(it, mode.number()) }))
    }

    pub(super) fn shut(&mut self, sender: u32) -> Result<(), Error> {
        // SAFETY: as above.
        refused(self.call(|it| unsafe { raw::fx_seat_shut(it, sender) }))
    }

    pub(super) fn is_drained(&mut self) -> bool {
        // SAFETY: as above.
        unsafe { raw::fx_seat_drained(&mut self.handle) == raw::FX_OK }
    }

    pub(super) fn shows(&mut self) -> bool {
        // SAFETY: as above.
        unsafe { raw::fx_seat_shows(&mut self.handle) == raw::FX_OK }
    }

    pub(super) fn stats(&mut self) -> raw::fx_core_stats {
        let mut stats = CoreStats::asked();
        // SAFETY: as above.
        let code = unsafe { raw::fx_seat_stats(&mut self.handle, &mut stats) };
        assert_eq!(code, raw::FX_OK);
        stats
    }

    pub(super) fn stats_of(&mut self, queue: u32) -> Result<raw::fx_queue_stats, Error> {
        let mut stats = QueueStats::asked();
        // SAFETY: as above.
        refused(unsafe { raw::fx_seat_stats_of_queue(&mut self.handle, queue, &mut stats) })?;
        Ok(stats)
    }
}

impl Drop for Seat {
    fn drop(&mut self) {
        self.enter();
        // SAFETY: as above, and nobody uses the handle any more. A seat that ended is empty, which the call tells.
        unsafe { raw::fx_seat_free(&mut self.handle) };
    }
}

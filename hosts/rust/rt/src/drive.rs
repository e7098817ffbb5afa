//! The loop of a core: what was woken goes into its queues, the library tells what runs, and a core that has nothing to do sleeps.

use crate::builder::Setup;
use crate::journal::{Notes, Taker};
use crate::local::{Job, Local};
use crate::own::Own;
use crate::shared::Port;
use crate::Error;
use fairexec::linked::{Answer, Core, Cx, Outcome, Step, Ticket};
use fairexec::wall_clock;
use fairexec::Mode;
use std::sync::atomic::Ordering;
use std::time::Duration;

/// A core that did something tells its statistics once so many nanoseconds are over since the last time: while it runs, or as it wakes from a sleep,
/// which isn't longer.
const TOLD_EVERY: u64 = 10_000_000;

/// And not before so many times as long as that took are over, which the library's time for each queue makes long if there are many. But a core that
/// was interrupted tells them after a second.
const TOLD_PART: u64 = 200;
const TOLD_AT_LAST: u64 = 1_000_000_000;

/// Notes that go to a file are there after so many nanoseconds, however few they are. The core wakes for that.
const WRITTEN_EVERY: u64 = 1_000_000_000;

/// How long a core sleeps if the library allows so much. Under `--cfg long_sleep`, by which `tests/rt` compiles, it is longer than any test waits,
/// so that a ring that is lost shows.
fn longest_sleep(allowed: Duration) -> Duration {
    if cfg!(long_sleep) && !allowed.is_zero() {
        return Duration::from_secs(3600);
    }
    allowed
}

/// A core and what its thread has.
pub(crate) struct Driver<'a> {
    local: &'a Local,
    core: &'a mut Core<Job>,
    setup: &'a Setup,
    own: Own,
    // When the statistics are told again, if something was done since then.
    tells: u64,
    is_behind: bool,
    // When the notes are written, if they go to a file and some were made since the last time.
    writes: u64,
    is_unwritten: bool,
}

/// One run of a job.
fn run(local: &Local, job: &mut Job, cx: &mut Cx<'_, Job>, own: &mut Own, setup: &Setup) -> Step {
    let queue = cx.queue();
    local.begin(queue);
    own.runs.begin();
    let is_over = match job {
        Job::Tasks => {
            let is_over = local.run_ready(queue, || tell_if_slow(local, queue, setup));
            if is_over {
                own.end(queue);
            }
            is_over
        }
        Job::Calls(calls) => {
            // Before the caller can see that one ended.
            local.tell_busy();
            let is_over = local.begin_calls(queue, calls);
            tell_if_slow(local, queue, setup);
            is_over
        }
    };
    // What runs next may be long. An error comes again behind the round, which tells it.
    if !local.has_closed.get() {
        let _ = send_calls(local, |to, queue, job| cx.submit(to, queue, job));
    }
    if is_over {
        Step::Done(0)
    } else {
        Step::Yield
    }
}

/// Sends calls, by the core or by a run on it, as far as the links have room.
fn send_calls(local: &Local, mut submit: impl FnMut(u32, u32, Job) -> Result<Ticket, (fairexec::Error, Job)>) -> Result<bool, Error> {
    let mut did = false;
    for (to, outbox) in (0..).zip(&local.outbox) {
        loop {
            let Some((queue, calls)) = outbox.borrow_mut().pop_front() else { break };
            let count = calls.len();
            match submit(to, queue, Job::Calls(calls)) {
                Ok(ticket) => {
                    local.sent[to as usize].borrow_mut().add_calls(queue, ticket, count);
                    local.shared.ports[to as usize].tell_calls();
                }
                // The core is closing: who calls is told by the drop.
                Err((fairexec::Error::Closed, calls)) => drop(calls),
                Err((error, calls)) => {
                    if let Job::Calls(calls) = calls {
                        outbox.borrow_mut().push_front((queue, calls));
                    }
                    match error {
                        fairexec::Error::Full => break,
                        error => return Err(error.into()),
                    }
                }
            }
            did = true;
        }
    }
    Ok(did)
}

/// Tells of a task or of calls whose run ends now, if it was slow.
fn tell_if_slow(local: &Local, queue: u32, setup: &Setup) {
    if setup.slow_poll.is_some() {
        tell_slow(local, queue, setup);
    }
}

#[cold]
fn tell_slow(local: &Local, queue: u32, setup: &Setup) {
    let Some((longest, tell)) = &setup.slow_poll else { return };
    let ran = Duration::from_nanos(wall_clock().saturating_sub(local.began.get()));
    if ran >= *longest {
        tell(crate::SlowPoll { core: local.number, queue: crate::Queue(queue), name: local.shared.queues[queue as usize].name.clone(), ran });
    }
}

impl<'a> Driver<'a> {
    pub(crate) fn new(local: &'a Local, core: &'a mut Core<Job>, setup: &'a Setup) -> Driver<'a> {
        let own = Own::new(local.ready.len());
        Driver { local, core, setup, own, tells: 0, is_behind: true, writes: 0, is_unwritten: false }
    }

    /// Runs tasks until the executor closes, or until the core fails: then it tells the others, and hands back whatever is inside.
    pub(crate) fn run(&mut self) -> Result<(), Error> {
        let told = self.run_until_end();
        if let Err(error) = &told {
            self.local.shared.ending.fail();
            if let Error::Library(fairexec::Error::JournalFull) = error {
                // Nobody judges this journal any more, and what is left to do takes notes.
                self.core.forget()?;
                self.core.keep_notes_by(|_| {});
            }
            // It may be closed already.
            let _ = self.core.close(Mode::Return);
        }
        let closed = self.close();
        told.and(closed)
    }

    fn run_until_end(&mut self) -> Result<(), Error> {
        let (mut now, mut has_told) = (wall_clock(), false);
        while !self.local.shared.ending.is_closing() {
            if !has_told && self.local.shared.ending.is_stopping() {
                has_told = true;
                self.local.tell_stop();
            }
            let did = self.step(now)?;
            now = wall_clock();
            let is_idle = !did || self.is_idle();
            self.is_behind |= did;
            // Nobody wakes it from a long sleep to tell them.
            if self.is_behind && (now >= self.tells || (cfg!(long_sleep) && is_idle)) {
                self.tell(Port::try_tell);
                self.tells = now + (TOLD_PART * (wall_clock() - now)).clamp(TOLD_EVERY, TOLD_AT_LAST);
            }
            self.is_unwritten |= did && self.taker().is_some();
            if self.is_unwritten && now >= self.writes {
                self.core.hand_on(self.taker())?;
                (self.writes, self.is_unwritten) = (now + WRITTEN_EVERY, false);
            }
            if is_idle {
                self.tell_quiet(has_told);
                self.sleep(now, has_told, self.local.reactor.asks(now))?;
            } else if self.local.reactor.asks_between(now) {
                self.local.reactor.wait(Duration::ZERO, Duration::MAX)?;
            } else {
                continue;
            }
            if self.local.reactor.wake() {
                now = wall_clock();
            }
        }
        Ok(())
    }

    /// Who takes the notes, if they go to a file.
    fn taker(&self) -> &'a Option<Taker> {
        &self.setup.takers[self.local.number as usize]
    }

    /// One round. Whether anything happened.
    fn step(&mut self, now: u64) -> Result<bool, Error> {
        let local = self.local;
        local.timers.fire(now);
        let mut did = local.take_mail();
        did |= self.submit_ready()?;
        local.shared.ports[local.number as usize].sees_calls();
        did |= self.round()?;
        did |= self.send()?;
        self.own.redeem_ended(self.core)?;
        did |= self.redeem_sent()?;
        Ok(did)
    }

    /// Delivers, runs jobs and collects. Whether anything happened.
    fn round(&mut self) -> Result<bool, Error> {
        let (local, setup, own) = (self.local, self.setup, &mut self.own);
        own.runs.clear();
        Ok(self.core.round(|job, cx| run(local, job, cx, own, setup))?)
    }

    /// Whether a step that did something has left nothing to do: its round ended since no queue had work, and nothing became ready meanwhile.
    fn is_idle(&self) -> bool {
        let local = self.local;
        self.own.runs.ran_out(self.setup.round) && self.own.has_redeemed() && !local.has_some_ready() && !local.has_some_to_send()
    }

    /// Waits for an event, a timer, or a ring. What comes before the ring can be seen is found by the look: `wait_by` has the argument. If it finds
    /// something, the reactor is asked if it `asks`.
    ///
    /// Behind a step that left nothing to do, and behind one that did nothing, the core has no task that could run, since a run of those that became ready
    /// was submitted before the round, and no room for what is to be sent. So what may come is mail, a link that shows something, and the end.
    fn sleep(&mut self, now: u64, has_told: bool, asks: bool) -> Result<(), Error> {
        let local = self.local;
        let (port, ending) = (&local.shared.ports[local.number as usize], &local.shared.ending);
        let timer = local.timers.next_after(now).unwrap_or(Duration::MAX);
        let next = if self.is_unwritten { timer.min(Duration::from_nanos(self.writes.saturating_sub(now))) } else { timer };
        let looks = || port.has_mail() || ending.is_closing() || ending.is_stopping() != has_told;
        self.core.wait_by(looks, |longest| if longest.is_zero() && !asks { Ok(()) } else { local.reactor.wait(longest_sleep(longest), next) })?;
        Ok(())
    }

    /// Hands in a run of the tasks that can go on, for each queue that has some and no such run inside.
    fn submit_ready(&mut self) -> Result<bool, Error> {
        let mut did = false;
        for (queue, ready) in (0..).zip(&self.local.ready) {
            if ready.borrow().is_empty() || !self.own.is_out(queue) {
                continue;
            }
            match self.core.submit(self.local.number, queue, Job::Tasks) {
                Ok(ticket) => self.own.add(ticket, queue),
                Err((fairexec::Error::Full, _)) => return Ok(did),
                // The core is closing, and its tasks are dropped.
                Err((fairexec::Error::Closed, _)) => {
                    let all = ready.take();
                    drop(all);
                }
                Err((error, _)) => return Err(error.into()),
            }
            did = true;
        }
        Ok(did)
    }

    /// Sends calls and orders, as far as the links have room.
    fn send(&mut self) -> Result<bool, Error> {
        let mut did = send_calls(self.local, |to, queue, job| self.core.submit(to, queue, job))?;
        loop {
            let Some(order) = self.local.orders.borrow_mut().pop_front() else { break };
            match self.core.set_shares(order.core, order.queue, order.shares) {
                Ok(ticket) => self.local.sent[order.core as usize].borrow_mut().shares.push((ticket, order.told)),
                Err(fairexec::Error::Full) => {
                    self.local.orders.borrow_mut().push_front(order);
                    break;
                }
                // The core is closing.
                Err(fairexec::Error::Closed) => drop(order),
                Err(error) => return Err(error.into()),
            }
            did = true;
        }
        Ok(did)
    }

    fn redeem_sent(&mut self) -> Result<bool, Error> {
        let mut did = false;
        for sent in &self.local.sent {
            if sent.borrow().len() == 0 {
                continue;
            }
            let sent = &mut *sent.borrow_mut();
            for calls in &mut sent.calls {
                while let Some((ticket, count)) = calls.front() {
                    match self.core.redeem(ticket) {
                        Err(fairexec::Error::Pending) => break,
                        // Calls that came back are dropped, which their callers are told.
                        told => drop(told?),
                    }
                    sent.count -= count;
                    calls.pop_front();
                    did = true;
                }
            }
            let mut at = 0;
            while at < sent.shares.len() {
                match self.core.redeem(&sent.shares[at].0) {
                    Err(fairexec::Error::Pending) => at += 1,
                    told => {
                        let (_, caller) = sent.shares.swap_remove(at);
                        if let Outcome::Answered(Answer::SharesSet) = told? {
                            caller.start(self.local, 0);
                        }
                        did = true;
                    }
                }
            }
        }
        Ok(did)
    }

    /// Tells, behind a stop, that nothing is left to do.
    fn tell_quiet(&self, is_stopping: bool) {
        let local = self.local;
        if !is_stopping || local.is_quiet.get() || !local.alive.borrow().is_empty() {
            return;
        }
        if !local.has_some_to_send() && local.sent.iter().all(|it| it.borrow().len() == 0) {
            local.is_quiet.set(true);
            local.shared.ending.set_quiet(local.number, true);
        }
    }

    /// Drops all tasks, and goes on until the core is drained.
    fn close(&mut self) -> Result<(), Error> {
        let local = self.local;
        local.drop_tasks();
        loop {
            local.take_mail();
            let did = self.round()?;
            self.own.redeem_all(self.core)?;
            self.redeem_sent()?;
            // What came back may have been a task's last reason to live, or a call that starts one.
            local.drop_tasks();
            if self.core.is_drained() {
                break;
            }
            if !did {
                let port = &local.shared.ports[local.number as usize];
                self.core.wait_by(|| port.has_mail(), |longest| local.reactor.wait(longest_sleep(longest), Duration::MAX))?;
            }
        }
        self.tell(Port::tell);
        Ok(())
    }

    /// Leaves the statistics for other threads.
    fn tell(&mut self, leaves: impl FnOnce(&Port, &mut Core<Job>)) {
        let local = self.local;
        let port = &local.shared.ports[local.number as usize];
        port.tasks.store(local.alive.borrow().len() as u64, Ordering::Relaxed);
        if let Some(taker) = self.taker() {
            port.journal_bytes.store(taker.bytes(), Ordering::Relaxed);
        }
        leaves(port, self.core);
        self.is_behind = false;
    }
}

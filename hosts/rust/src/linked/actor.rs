//! What each actor of a house does: it submits, collects, and asks for outcomes.

use super::fresh::Fresh;
use super::lanes::Lanes;
use super::names::{Answer, Name, Outcome, Reason};
use super::seat::{Seat, Told};
use super::sleepers::Sleepers;
use crate::error::Error;
use std::collections::VecDeque;
use std::ops::{Deref, DerefMut};
use std::sync::Arc;
use std::time::Duration;

/// The right to ask for the outcome of one submission. Only the actor that made it has an answer.
///
/// A ticket that is dropped lets nothing go: its submission keeps its place of the link until it is redeemed or detached.
///
/// ```
/// use fairexec::linked::{Config, House, Outcome, Step};
///
/// let (_house, mut cores, mut outside) = House::open(&Config::default())?;
/// let ticket = outside.submit(0, 0, ()).map_err(|(error, ())| error)?;
/// assert_eq!(ticket.name().number, 1);
/// while cores[0].round(|(), _| Step::Done(7))? {}
/// assert_eq!(outside.collect()?, 1);
/// assert_eq!(outside.redeem(&ticket)?, Outcome::Done(7));
/// # Ok::<(), fairexec::Error>(())
/// ```
#[must_use = "a ticket that is dropped keeps its place of the link: redeem or detach it"]
#[derive(PartialEq, Eq, Debug)]
pub struct Ticket {
    name: Name,
    house: u64,
    // Where the job stands, or `NOWHERE` if it is no job.
    place: u32,
}

/// The place of an order that is no job.
const NOWHERE: u32 = u32::MAX;

impl Ticket {
    /// The name of the submission: by it a job is woken.
    pub fn name(&self) -> Name {
        self.name
    }

    /// The same ticket once more.
    pub(super) fn again(&self) -> Ticket {
        Ticket { ..*self }
    }
}

/// What an actor knows of its submissions to one core. No other actor has something on these lines of a cache.
#[repr(align(128))]
struct Sent {
    // The places where no job of this actor stands. A job for another core takes that which is vacant longest, since neighbours are on one line of a
    // cache, and one for the core itself that which was used last.
    vacant: VecDeque<u32>,
    // So many stay vacant. On its link to itself a core keeps a place for orders: if jobs that wait had all of them, no wake could go out.
    kept: usize,
    // Submissions whose outcome wasn't collected.
    pending: u64,
    // Outcomes that were collected and not redeemed, or more: an order that was detached before its answer came stays counted.
    ready: u64,
    // Whether the core was told that it has to look at the link.
    is_used: bool,
    // Submissions for whose outcome nobody asks. They are redeemed once they are collected, since a job that comes back has a place.
    loose: VecDeque<Ticket>,
}

impl Sent {
    /// Tells before the first order that this link is used.
    #[inline]
    fn tell_use<J>(&mut self, lanes: &Lanes<J>, from: u32, to: u32) {
        if !self.is_used {
            self.is_used = true;
            lanes.use_link(from, to);
        }
    }
}

/// An actor and the jobs that it submitted.
pub(super) struct Actor<J> {
    pub(super) seat: Seat,
    pub(super) number: u32,
    pub(super) lanes: Arc<Lanes<J>>,
    // By the core.
    sent: Vec<Sent>,
    // Orders of a core to itself that it didn't deliver.
    undelivered: u32,
    // Whether the last collection ended before it redeemed each of those for which nobody asks: the journal was too full, or it panicked.
    misses: bool,
    // Of a core: what it delivered.
    pub(super) fresh: Fresh,
    // If its jobs may sleep. It stands behind the seat.
    pub(super) sleepers: Option<Sleepers>,
}

/// An actor during the calls that one thread makes on its seat.
pub(super) struct Entered<'a, J>(&'a mut Actor<J>);

impl<J> Drop for Entered<'_, J> {
    #[inline]
    fn drop(&mut self) {
        self.0.seat.leave();
    }
}

impl<J> Deref for Entered<'_, J> {
    type Target = Actor<J>;

    fn deref(&self) -> &Actor<J> {
        self.0
    }
}

impl<J> DerefMut for Entered<'_, J> {
    fn deref_mut(&mut self) -> &mut Actor<J> {
        self.0
    }
}

impl<J> Actor<J> {
    pub(super) fn new(number: u32, seat: Seat, lanes: Arc<Lanes<J>>) -> Actor<J> {
        let (room, keeps) = (Lanes::<J>::room(lanes.places()), |to| if to == number && lanes.places() > 1 { 2 } else { 0 });
        let none = |to| Sent { vacant: (0..room).collect(), kept: keeps(to), pending: 0, ready: 0, is_used: false, loose: VecDeque::new() };
        let sent = (0..lanes.cores()).map(none).collect();
        let fresh = Fresh::new(lanes.cores() + 1);
        Actor { seat, number, lanes, sent, undelivered: 0, misses: false, fresh, sleepers: None }
    }

    /// Each call below is made by an actor that was entered.
    #[inline]
    pub(super) fn enter(&mut self) -> Entered<'_, J> {
        self.seat.enter();
        Entered(self)
    }

    #[inline]
    pub(super) fn submit(&mut self, to: u32, queue: u32, job: J) -> Result<Ticket, (Error, J)> {
        let Some(sent) = self.sent.get_mut(to as usize) else { return Err((Error::UnknownCore, job)) };
        // A link that is full has a job in each place but one at most.
        let is_own = to == self.number;
        let place = if is_own { sent.vacant.back() } else { sent.vacant.front() };
        let Some(&place) = place.filter(|_| sent.vacant.len() > sent.kept) else { return Err((Error::Full, job)) };
        sent.tell_use(&self.lanes, self.number, to);
        // SAFETY: a vacant place is the sender's.
        unsafe { self.lanes.put(self.number, to, place, job) };
        match self.seat.submit(to, queue, place) {
            Ok(number) => {
                let _taken = if is_own { sent.vacant.pop_back() } else { sent.vacant.pop_front() };
                Ok(self.accepted(Name { from: self.number, to, number }, place))
            }
            Err(error) => {
                // SAFETY: the order wasn't accepted, so the place still is the sender's.
                let job = unsafe { self.lanes.take(self.number, to, place) };
                Err((error, job.expect("a job that wasn't accepted stands where it was put")))
            }
        }
    }

    /// An order to a core that is no job.
    pub(super) fn order(&mut self, to: u32, order: impl FnOnce(&mut Seat) -> Result<Name, Error>) -> Result<Ticket, Error> {
        // The library refuses an order to a core that isn't there.
        if let Some(sent) = self.sent.get_mut(to as usize) {
            sent.tell_use(&self.lanes, self.number, to);
        }
        let name = order(&mut self.seat)?;
        Ok(self.accepted(name, NOWHERE))
    }

    #[inline]
    fn accepted(&mut self, name: Name, place: u32) -> Ticket {
        self.sent[name.to as usize].pending += 1;
        self.undelivered += u32::from(name.to == self.number);
        self.lanes.ring(name.to);
        Ticket { name, house: self.lanes.house(), place }
    }

    /// The core submitted an order to itself, for whose outcome nobody asks.
    pub(super) fn sent_to_itself(&mut self) {
        self.sent[self.number as usize].pending += 1;
        self.undelivered += 1;
    }

    /// Whether the link from an actor to this core may show an order. That from itself shows what wasn't delivered.
    #[inline]
    pub(super) fn may_show(&self, sender: u32) -> bool {
        if sender == self.number {
            return self.undelivered > 0;
        }
        self.lanes.is_used(sender, self.number)
    }

    /// Delivers so many orders of this actor at most. How many it were.
    pub(super) fn deliver(&mut self, sender: u32, most: u32) -> Result<u32, Error> {
        let (is_own, mut count) = (sender == self.number, 0);
        // A look at its own link that finds nothing is spared.
        let most = if is_own { most.min(self.undelivered) } else { most };
        let told = loop {
            if count == most {
                break Ok(count);
            }
            match self.seat.deliver(sender) {
                Ok(true) => count += 1,
                Ok(false) => break Ok(count),
                Err(error) => break Err(error),
            }
        };
        self.fresh.deliver(sender, count);
        self.undelivered -= if is_own { count } else { 0 };
        told
    }

    /// Rings for those whose orders were answered at their delivery, and who may sleep.
    #[inline]
    pub(super) fn ring_for_answers(&mut self, is_idle: bool) {
        let Actor { fresh, lanes, .. } = self;
        fresh.look(is_idle, |sender| lanes.ring(sender));
    }

    /// Shuts the gates of these actors in a closed core. Whether one was shut, or `Open`.
    pub(super) fn shut(&mut self, senders: impl Iterator<Item = u32>) -> Result<bool, Error> {
        let mut did = false;
        for sender in senders {
            match self.seat.shut(sender) {
                Ok(()) => did = true,
                Err(Error::Shut) => {}
                Err(error) => return Err(error),
            }
        }
        Ok(did)
    }

    /// Collects what the links show. How many outcomes there were.
    pub(super) fn collect(&mut self) -> Result<u64, Error> {
        let mut back = Vec::new();
        self.collect_and_keep(&mut back, None)
    }

    /// The same. The names of what came go behind these.
    pub(super) fn collect_names(&mut self, names: &mut Vec<Name>) -> Result<u64, Error> {
        let mut back = Vec::new();
        self.collect_and_keep(&mut back, Some(names))
    }

    /// The same. The jobs that come back and for which nobody asks go behind these, for the caller to drop, and the names of what came behind those.
    pub(super) fn collect_and_keep(&mut self, back: &mut Vec<J>, mut names: Option<&mut Vec<Name>>) -> Result<u64, Error> {
        let (mut all, mut misses) = (0, false);
        let missed = std::mem::replace(&mut self.misses, true);
        for core in 0..self.lanes.cores() {
            let count = self.collect_from(core)?;
            if let Some(names) = names.as_deref_mut().filter(|_| count > 0) {
                self.seat.came(count, names)?;
            }
            misses |= !self.redeem_loose(core, if missed { u64::MAX } else { count }, back);
            all += count;
        }
        self.misses = misses;
        Ok(all)
    }

    fn collect_from(&mut self, core: u32) -> Result<u64, Error> {
        let sent = &mut self.sent[core as usize];
        let count = if sent.pending > 0 { self.seat.collect(core)? } else { 0 };
        sent.pending -= count;
        sent.ready += count;
        Ok(count)
    }

    /// Redeems so many of the submissions for which nobody asks, if their outcomes were collected. Whether the journal had room.
    fn redeem_loose(&mut self, core: u32, most: u64, back: &mut Vec<J>) -> bool {
        let (mut at, mut left) = (0, most);
        while left > 0 {
            let Some(ticket) = self.sent[core as usize].loose.get(at).map(Ticket::again) else { return true };
            match self.redeem(&ticket) {
                Err(Error::JournalFull) => return false,
                Err(Error::Pending) => at += 1,
                told => {
                    back.extend(told.ok().and_then(Outcome::into_job));
                    self.sent[core as usize].loose.remove(at);
                    left -= 1;
                }
            }
        }
        true
    }

    #[inline]
    pub(super) fn redeem(&mut self, ticket: &Ticket) -> Result<Outcome<J>, Error> {
        // The ticket of another house may have the same name.
        if ticket.house != self.lanes.house() {
            return Err(Error::Unknown);
        }
        let Name { from, to, .. } = ticket.name;
        let outcome = match self.seat.redeem(ticket.name)? {
            Told::Done(answer) => Outcome::Done(answer),
            Told::Answered(answer, queue) => Outcome::Answered(Answer::of(answer, queue)),
            Told::Back(reason, place) => {
                assert_eq!(place, ticket.place, "a job comes back with its number");
                // SAFETY: the outcome hands the place back to the sender.
                let job = unsafe { self.lanes.take(from, to, place) };
                Outcome::Back(Reason::of(reason), job.expect("a job that comes back has its place"))
            }
        };
        let sent = &mut self.sent[to as usize];
        sent.ready -= 1;
        // An outcome is redeemed once, so no place is vacant twice.
        if ticket.place != NOWHERE {
            sent.vacant.push_back(ticket.place);
        }
        Ok(outcome)
    }

    /// The same, before anything is collected: `Pending` at once if no outcome of this core waits to be redeemed.
    #[inline]
    pub(super) fn redeem_early(&mut self, ticket: &Ticket) -> Result<Outcome<J>, Error> {
        match self.sent.get(ticket.name.to as usize) {
            Some(sent) if sent.ready > 0 => self.redeem(ticket),
            _ => Err(Error::Pending),
        }
    }

    /// Nobody asks for the outcome of this submission from now on. If its job came back, the caller drops it.
    pub(super) fn detach(&mut self, ticket: Ticket) -> Result<Option<J>, Error> {
        let is_order = ticket.place == NOWHERE && ticket.house == self.lanes.house();
        let told = if is_order { self.seat.detach(ticket.name).map(|()| None) } else { self.redeem(&ticket).map(Outcome::into_job) };
        match told {
            // The next collection looks for it, also if its outcome was collected before.
            Err(error @ (Error::Pending | Error::JournalFull)) => {
                self.misses |= error == Error::JournalFull;
                self.sent[ticket.name.to as usize].loose.push_back(ticket);
                Ok(None)
            }
            told => told,
        }
    }

    /// Sleeps until its bell is rung, for so long at most.
    pub(super) fn sleep(&mut self, longest: Duration) {
        let Actor { seat, number, lanes, .. } = self;
        lanes.sleep(*number, longest, || seat.shows());
    }
}

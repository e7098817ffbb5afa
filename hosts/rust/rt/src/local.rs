//! What the thread of a core has: its tasks, timers and reactor, and what goes out to other cores.

use crate::call::Start;
use crate::first::First;
use crate::reactor::Reactor;
use crate::shared::{Mail, Queue, Shared};
use crate::task::Turn;
use crate::time::Timers;
use fairexec::linked::Ticket;
use fairexec::wall_clock;
use slab::Slab;
use std::cell::{Cell, OnceCell, RefCell};
use std::collections::VecDeque;
use std::sync::Arc;
use std::task::Waker;
use std::thread::{self, ThreadId};

/// A job of the library.
pub(crate) enum Job {
    /// A run of the tasks of its queue that can go on, on the core that submitted it. A queue has one at most inside.
    Tasks,
    /// Calls for one queue. They stand among those of the queue once this has run.
    Calls(Calls),
}

/// Calls of one core for one queue of another, in their order.
pub(crate) struct Calls {
    first: Option<Start>,
    // Mostly there is none, and then nothing is allocated.
    others: Vec<Start>,
    /// The last one has begun once so many calls of the queue have.
    end: Option<u64>,
}

impl Calls {
    pub(crate) fn new(first: Start) -> Calls {
        Calls { first: Some(first), others: Vec::new(), end: None }
    }

    pub(crate) fn len(&self) -> usize {
        usize::from(self.first.is_some()) + self.others.len()
    }
}

/// An order to give a queue shares, once the link to its core has room.
pub(crate) struct Order {
    pub(crate) core: u32,
    pub(crate) queue: u32,
    pub(crate) shares: u32,
    /// What is started once that was done.
    pub(crate) told: Start,
}

/// What was submitted to a core and whose outcome isn't known.
pub(crate) struct Sent {
    /// Calls that went together, by their queue, with how many they are. Those of a queue begin in their order.
    pub(crate) calls: Vec<VecDeque<(Ticket, usize)>>,
    /// How many calls these are.
    pub(crate) count: usize,
    /// New shares.
    pub(crate) shares: Vec<(Ticket, Start)>,
}

impl Sent {
    /// So many calls went together to this queue.
    pub(crate) fn add_calls(&mut self, queue: u32, ticket: Ticket, count: usize) {
        self.calls[queue as usize].push_back((ticket, count));
        self.count += count;
    }

    /// How many calls and orders.
    pub(crate) fn len(&self) -> usize {
        self.count + self.shares.len()
    }
}

/// Calls of a queue of this core that came here and haven't begun, and how many of it have begun.
#[derive(Default)]
struct Begins {
    waiting: VecDeque<Start>,
    begun: u64,
}

/// No task.
const NONE: usize = usize::MAX;

/// What the wakers of a core's tasks know of the core. They count their references here, on lines of a cache that no other core writes, mostly.
pub(crate) struct Home {
    pub(crate) shared: Arc<Shared>,
    pub(crate) core: u32,
    pub(crate) thread: ThreadId,
}

/// The thread of a core.
pub(crate) struct Local {
    pub(crate) number: u32,
    pub(crate) home: Arc<Home>,
    pub(crate) shared: Arc<Shared>,
    pub(crate) reactor: Reactor,
    pub(crate) timers: Timers,
    /// Tasks that haven't ended.
    pub(crate) alive: RefCell<Slab<Waker>>,
    /// Tasks that can go on, by their queue.
    pub(crate) ready: Vec<RefCell<VecDeque<Turn>>>,
    /// The task that is polled.
    running: Cell<usize>,
    /// That task, if it was woken while it is polled.
    again: RefCell<Option<Turn>>,
    /// When the run began that goes on, its queue, and the slice of that.
    pub(crate) began: Cell<u64>,
    pub(crate) queue: Cell<u32>,
    pub(crate) slice: Cell<u64>,
    /// By the core: calls that go there once its link has room, with their queue.
    pub(crate) outbox: Vec<RefCell<VecDeque<(u32, Calls)>>>,
    pub(crate) orders: RefCell<VecDeque<Order>>,
    /// By the core.
    pub(crate) sent: Vec<RefCell<Sent>>,
    /// Callers on other cores that were answered in the run of calls that goes on, by their core. They go there together.
    pub(crate) answered: Vec<RefCell<Vec<Mail>>>,
    // Whether such a run goes on, and whether who is woken was answered.
    begins_calls: Cell<bool>,
    pub(crate) is_answer: Cell<bool>,
    // By the queue.
    begins: Vec<RefCell<Begins>>,
    // Room of calls that came together, for some that go together.
    spare: Cell<Vec<Start>>,
    // None while it is used.
    pub(crate) first: Cell<Option<First>>,
    // Room for mail.
    mail: RefCell<Vec<Mail>>,
    /// Who awaits a stop.
    pub(crate) stopping: RefCell<Slab<Waker>>,
    /// Whether the core told that it has nothing to do.
    pub(crate) is_quiet: Cell<bool>,
    /// Whether tasks that become ready are dropped, since the core ends.
    pub(crate) has_closed: Cell<bool>,
}

thread_local!(static HERE: OnceCell<Local> = const { OnceCell::new() });

/// The core of this thread.
///
/// # Panics
///
/// If it has none.
pub(crate) fn here<R>(call: impl FnOnce(&Local) -> R) -> R {
    with_here(call).expect("this is called by a task of an executor")
}

/// The core of this thread, if it has one.
pub(crate) fn with_here<R>(call: impl FnOnce(&Local) -> R) -> Option<R> {
    HERE.try_with(|it| it.get().map(call)).ok().flatten()
}

/// Wakes who waits for an answer. If it is told in a run of calls, a caller on another core is told behind that run, with all that this answers.
pub(crate) fn wake_together(caller: Waker) {
    let outer = with_here(|it| it.is_answer.replace(it.begins_calls.get()));
    caller.wake();
    if let Some(outer) = outer {
        with_here(|it| it.is_answer.set(outer));
    }
}

/// Makes this thread that of a core for as long as the call goes on.
pub(crate) fn on_core<R>(local: Local, call: impl FnOnce(&Local) -> R) -> R {
    HERE.with(|it| call(it.get_or_init(|| local)))
}

impl Local {
    pub(crate) fn new(number: u32, shared: Arc<Shared>, reactor: Reactor) -> Local {
        let (cores, queues) = (shared.cores(), shared.queues.len());
        let sent = || Sent { calls: (0..queues).map(|_| VecDeque::new()).collect(), count: 0, shares: Vec::new() };
        Local {
            number,
            home: Arc::new(Home { shared: Arc::clone(&shared), core: number, thread: thread::current().id() }),
            shared,
            reactor,
            timers: Timers::default(),
            alive: RefCell::default(),
            ready: (0..queues).map(|_| RefCell::default()).collect(),
            running: Cell::new(NONE),
            again: RefCell::default(),
            began: Cell::new(0),
            queue: Cell::new(0),
            slice: Cell::new(0),
            outbox: (0..cores).map(|_| RefCell::default()).collect(),
            orders: RefCell::default(),
            sent: (0..cores).map(|_| RefCell::new(sent())).collect(),
            answered: (0..cores).map(|_| RefCell::default()).collect(),
            begins_calls: Cell::new(false),
            is_answer: Cell::new(false),
            begins: (0..queues).map(|_| RefCell::default()).collect(),
            spare: Cell::default(),
            first: Cell::default(),
            mail: RefCell::default(),
            stopping: RefCell::default(),
            is_quiet: Cell::new(false),
            has_closed: Cell::new(false),
        }
    }

    /// # Panics
    ///
    /// If there is no such core or queue.
    pub(crate) fn check(&self, core: u32, queue: Queue) {
        assert!(core < self.shared.cores(), "there is no core {core}");
        assert!(queue.0 < self.shared.queues.len() as u32, "there is no queue {}", queue.0);
    }

    /// Whether the link to a core takes no more.
    pub(crate) fn is_full(&self, core: u32) -> bool {
        let core = core as usize;
        let waiting: usize = self.outbox[core].borrow().iter().map(|(_, calls)| calls.len()).sum();
        waiting + self.sent[core].borrow().len() >= self.shared.places as usize
    }

    /// Sends a call behind this run. It goes with the one before if that is for the same queue.
    pub(crate) fn send(&self, core: u32, queue: u32, start: Start) {
        let mut outbox = self.outbox[core as usize].borrow_mut();
        match outbox.back_mut() {
            Some((other, calls)) if *other == queue => {
                if calls.others.capacity() == 0 {
                    calls.others = self.spare.take();
                }
                calls.others.push(start);
            }
            _ => outbox.push_back((queue, Calls::new(start))),
        }
    }

    /// Starts calls of a queue in the order in which they came, up to the last one of these, or as long as the slice of the queue is. Whether these have
    /// all begun.
    pub(crate) fn begin_calls(&self, queue: u32, calls: &mut Calls) -> bool {
        let (begins, began) = (&self.begins[queue as usize], self.began.get());
        let mut left = {
            let Begins { waiting, begun } = &mut *begins.borrow_mut();
            calls.others.iter().for_each(Start::fetch);
            waiting.extend(calls.first.take().into_iter().chain(calls.others.drain(..)));
            calls.end.get_or_insert(*begun + waiting.len() as u64).saturating_sub(*begun)
        };
        let spare = self.spare.take();
        self.spare.set(if spare.capacity() < calls.others.capacity() { std::mem::take(&mut calls.others) } else { spare });
        self.begins_calls.set(true);
        while left > 0 {
            let next = {
                let Begins { waiting, begun } = &mut *begins.borrow_mut();
                *begun += 1;
                // It is gone if the core closes.
                waiting.pop_front()
            };
            next.into_iter().for_each(|it| it.start(self, queue));
            left -= 1;
            let now = if left > 0 { wall_clock() } else { break };
            if now.saturating_sub(began) >= self.slice.get() {
                break;
            }
            self.began.set(now);
        }
        self.began.set(began);
        self.begins_calls.set(false);
        for (port, answered) in self.shared.ports.iter().zip(&self.answered) {
            port.leave_all(&mut answered.borrow_mut());
        }
        left == 0
    }

    /// Polls the tasks of a queue that can go on, in their order, until one yields or the slice of the queue is over. `tells` is called behind each. Whether
    /// none is left.
    pub(crate) fn run_ready(&self, queue: u32, tells: impl Fn()) -> bool {
        let (ready, began) = (&self.ready[queue as usize], self.began.get());
        loop {
            let next = ready.borrow_mut().pop_front();
            let Some(turn) = next else { return true };
            let again = self.poll(turn);
            tells();
            let yields = again.is_some();
            again.into_iter().for_each(|it| self.hand_in(queue, it));
            if ready.borrow().is_empty() {
                return true;
            }
            let now = wall_clock();
            if yields || now.saturating_sub(began) >= self.slice.get() {
                return false;
            }
            self.began.set(now);
        }
    }

    /// A task was woken.
    pub(crate) fn take_woken(&self, queue: u32, turn: Turn) {
        if self.running.get() == turn.task {
            self.again.replace(Some(turn));
        } else {
            self.hand_in(queue, turn);
        }
    }

    /// A task can go on that isn't polled now.
    pub(crate) fn hand_in(&self, queue: u32, turn: Turn) {
        if !self.has_closed.get() {
            self.ready[queue as usize].borrow_mut().push_back(turn);
        }
    }

    /// Polls a task once. It is given back if it was woken meanwhile.
    pub(crate) fn poll(&self, turn: Turn) -> Option<Turn> {
        let outer = self.running.replace(turn.task);
        turn.run();
        self.running.set(outer);
        self.again.take()
    }

    /// Polls a task for the first time, within the run of the job that starts it.
    pub(crate) fn run_within(&self, queue: u32, turn: Turn) {
        if let Some(again) = self.poll(turn) {
            self.hand_in(queue, again);
        }
    }

    /// Takes what other threads left. Whether there was something.
    pub(crate) fn take_mail(&self) -> bool {
        let port = &self.shared.ports[self.number as usize];
        if !port.has_mail() {
            return false;
        }
        let mut all = self.mail.take();
        port.take(&mut all);
        for mail in all.drain(..) {
            match mail {
                Mail::Woken(queue, turn) => self.take_woken(queue, turn),
                Mail::Shares(queue, shares, told) => self.orders.borrow_mut().push_back(Order { core: self.number, queue, shares, told }),
                Mail::Start(queue, start) => {
                    if !self.has_closed.get() {
                        self.tell_busy();
                        // It waits for its turn in its queue as any task.
                        crate::task::spawn_local(Queue(queue), async move { here(|it| start.start(it, queue)) }).detach();
                    }
                }
            }
        }
        self.mail.replace(all);
        true
    }

    /// Takes back that the core told that it has nothing to do.
    pub(crate) fn tell_busy(&self) {
        if self.is_quiet.replace(false) {
            self.shared.ending.set_quiet(self.number, false);
        }
    }

    /// Tells those that await a stop that it was asked for.
    pub(crate) fn tell_stop(&self) {
        // Each takes its waker away itself, as it is dropped.
        let waiting: Vec<Waker> = self.stopping.borrow().iter().map(|(_, waker)| waker.clone()).collect();
        waiting.into_iter().for_each(Waker::wake);
    }

    /// Drops all tasks of the core. A future that is dropped may wake others, and start more, which are dropped too.
    pub(crate) fn drop_tasks(&self) {
        self.has_closed.set(true);
        loop {
            let wakers: Vec<Waker> = self.alive.borrow().iter().map(|(_, waker)| waker.clone()).collect();
            // A task that is woken comes as a runnable, here or by the mail, and is dropped by that.
            wakers.into_iter().for_each(Waker::wake);
            self.take_mail();
            for ready in &self.ready {
                let all = ready.take();
                drop(all);
            }
            if self.alive.borrow().is_empty() || !self.has_some_ready() {
                break;
            }
        }
        for outbox in &self.outbox {
            let all = outbox.take();
            drop(all);
        }
        let orders = self.orders.take();
        drop(orders);
        for begins in &self.begins {
            let all = std::mem::take(&mut begins.borrow_mut().waiting);
            drop(all);
        }
        self.timers.clear();
    }

    /// Whether there is something for other cores that their links didn't take yet, or an order.
    pub(crate) fn has_some_to_send(&self) -> bool {
        self.outbox.iter().any(|it| !it.borrow().is_empty()) || !self.orders.borrow().is_empty()
    }

    pub(crate) fn has_some_ready(&self) -> bool {
        self.ready.iter().any(|it| !it.borrow().is_empty())
    }
}

//! Files that a core waits for, by the epoll of `mio`. It is edge-triggered: a file is added once, and an event tells that a side may do something
//! since then. What a side may do is remembered until a call would block.

use crate::local::{here, with_here};
use fairexec::wall_clock;
use mio::event::Event;
use mio::unix::SourceFd;
use mio::{Events, Interest, Poll as Epoll, Token, Waker as Bell};
use slab::Slab;
use std::cell::{Cell, RefCell};
use std::fs::File;
use std::io::{self, ErrorKind};
use std::os::fd::{AsRawFd, FromRawFd, RawFd};
use std::rc::Rc;
use std::task::{Context, Poll, Waker};
use std::time::Duration;

/// A core asks its reactor between two runs once so many nanoseconds are over.
const BETWEEN_RUNS: u64 = 25_000;

/// What a task waits for.
#[derive(Clone, Copy, PartialEq, Eq)]
pub(crate) enum Side {
    Read,
    Write,
}

/// The reads or the writes of a file.
struct Half {
    waiting: RefCell<Option<Waker>>,
    // A call may do something: an event came behind the last one that would have blocked.
    is_ready: Cell<bool>,
    // No event will come any more, since each call has its answer.
    is_closed: Cell<bool>,
}

impl Half {
    fn new(is_ready: bool) -> Half {
        Half { waiting: RefCell::default(), is_ready: Cell::new(is_ready), is_closed: Cell::new(false) }
    }

    fn tell(&self, is_closed: bool) -> Option<Waker> {
        self.is_ready.set(true);
        self.is_closed.set(self.is_closed.get() || is_closed);
        self.waiting.take()
    }
}

struct Source {
    reads: Half,
    writes: Half,
}

impl Source {
    fn half(&self, side: Side) -> &Half {
        match side {
            Side::Read => &self.reads,
            Side::Write => &self.writes,
        }
    }

    /// Who waits for this event.
    fn tell(&self, event: &Event) -> [Option<Waker>; 2] {
        let (no_more_reads, no_more_writes, is_error) = (event.is_read_closed(), event.is_write_closed(), event.is_error());
        let reads = (event.is_readable() || no_more_reads || is_error).then(|| self.reads.tell(no_more_reads));
        let writes = (event.is_writable() || no_more_writes || is_error).then(|| self.writes.tell(no_more_writes));
        [reads.flatten(), writes.flatten()]
    }
}

/// Rings and timers have this key, and no file.
const NO_FILE: Token = Token(usize::MAX);

/// Timers of nanoseconds, where `epoll` has milliseconds.
struct Timer(File);

impl Timer {
    fn new() -> io::Result<Timer> {
        // SAFETY: the call has no pointer. What it opens is of this value alone.
        unsafe {
            match libc::timerfd_create(libc::CLOCK_MONOTONIC, libc::TFD_CLOEXEC | libc::TFD_NONBLOCK) {
                -1 => Err(io::Error::last_os_error()),
                fd => Ok(Timer(File::from_raw_fd(fd))),
            }
        }
    }

    /// Makes an event after so much time.
    fn set(&self, time: Duration) -> io::Result<()> {
        let never = libc::timespec { tv_sec: 0, tv_nsec: 0 };
        let value = libc::timespec { tv_sec: time.as_secs() as libc::time_t, tv_nsec: time.subsec_nanos().into() };
        let told = libc::itimerspec { it_interval: never, it_value: value };
        // SAFETY: the file is open, and the call reads a local value. It writes nothing where the last pointer is null.
        match unsafe { libc::timerfd_settime(self.0.as_raw_fd(), 0, &told, std::ptr::null_mut()) } {
            0 => Ok(()),
            _ => Err(io::Error::last_os_error()),
        }
    }
}

/// The reactor of a core.
pub(crate) struct Reactor {
    epoll: RefCell<Epoll>,
    timer: Timer,
    sources: RefCell<Slab<Rc<Source>>>,
    events: RefCell<Events>,
    // Whether nobody was woken for the events of the last wait.
    has_waited: Cell<bool>,
    // When they were woken last, and how long that is enough for a core that has work.
    woke: Cell<u64>,
    every: u64,
}

impl Reactor {
    /// A reactor, and what ends its wait from any thread. A ring is kept until it is heard.
    pub(crate) fn new(every: Duration) -> io::Result<(Reactor, Bell)> {
        let (epoll, timer) = (Epoll::new()?, Timer::new()?);
        let bell = Bell::new(epoll.registry(), NO_FILE)?;
        epoll.registry().register(&mut SourceFd(&timer.0.as_raw_fd()), NO_FILE, Interest::READABLE)?;
        Ok((
            Reactor {
                epoll: RefCell::new(epoll),
                timer,
                sources: RefCell::default(),
                events: RefCell::new(Events::with_capacity(1024)),
                has_waited: Cell::new(false),
                woke: Cell::new(0),
                every: every.as_nanos() as u64,
            },
            bell,
        ))
    }

    /// Waits for events, for so long at most, until a timer is due or until somebody rings.
    pub(crate) fn wait(&self, longest: Duration, next: Duration) -> io::Result<()> {
        let longest = if next.is_zero() { next } else { longest };
        if next < longest {
            self.timer.set(next)?;
        }
        // A waker that is called for an event may come here again.
        let Ok(mut events) = self.events.try_borrow_mut() else { return Ok(()) };
        self.has_waited.set(true);
        match self.epoll.borrow_mut().poll(&mut events, Some(longest)) {
            Err(error) if error.kind() != ErrorKind::Interrupted => Err(error),
            _ => Ok(()),
        }
    }

    /// Whether a core that has work asks for events by now.
    pub(crate) fn asks(&self, now: u64) -> bool {
        now.saturating_sub(self.woke.get()) >= self.every
    }

    /// The same between two runs. These are short, or ask themselves.
    pub(crate) fn asks_between(&self, now: u64) -> bool {
        now.saturating_sub(self.woke.get()) >= self.every.max(BETWEEN_RUNS)
    }

    /// Wakes who waits for the events that came. False if there was no wait since the last time.
    pub(crate) fn wake(&self) -> bool {
        if !self.has_waited.replace(false) {
            return false;
        }
        for event in self.events.borrow().iter() {
            let source = self.sources.borrow().get(event.token().0).map(Rc::clone);
            let wakers = source.map(|it| it.tell(event));
            wakers.into_iter().flatten().flatten().for_each(Waker::wake);
        }
        self.woke.set(wall_clock());
        true
    }

    fn add(&self, fd: RawFd) -> io::Result<(usize, Rc<Source>)> {
        // A new socket may be written to at once, mostly, and has nothing to read.
        let source = Rc::new(Source { reads: Half::new(false), writes: Half::new(true) });
        let key = self.sources.borrow_mut().insert(Rc::clone(&source));
        self.epoll.borrow().registry().register(&mut SourceFd(&fd), Token(key), Interest::READABLE | Interest::WRITABLE).inspect_err(|_| {
            self.sources.borrow_mut().remove(key);
        })?;
        Ok((key, source))
    }

    fn remove(&self, key: usize, fd: RawFd) {
        self.sources.borrow_mut().remove(key);
        // The file may be closed already, and then epoll knows it no more.
        let _ = self.epoll.borrow().registry().deregister(&mut SourceFd(&fd));
    }
}

/// A file that the reactor of this core knows. It stays on the core.
pub(crate) struct Registered<T: AsRawFd> {
    // None once it was taken out.
    io: Option<T>,
    key: usize,
    source: Rc<Source>,
}

impl<T: AsRawFd> Registered<T> {
    /// A file that doesn't block.
    ///
    /// # Panics
    ///
    /// Outside a task.
    pub(crate) fn new(io: T) -> io::Result<Registered<T>> {
        let (key, source) = here(|it| it.reactor.add(io.as_raw_fd()))?;
        Ok(Registered { io: Some(io), key, source })
    }

    pub(crate) fn get(&self) -> &T {
        self.io.as_ref().expect("it is taken out by value alone")
    }

    /// The file itself, which this core doesn't know any more.
    pub(crate) fn take_out(mut self) -> T {
        self.remove();
        self.io.take().expect("it is taken out once")
    }

    fn remove(&self) {
        if let Some(io) = &self.io {
            let _ = with_here(|it| it.reactor.remove(self.key, io.as_raw_fd()));
        }
    }

    /// Calls until the file doesn't block.
    pub(crate) fn poll_with<R>(&self, cx: &mut Context<'_>, side: Side, mut call: impl FnMut(&T) -> io::Result<R>) -> Poll<io::Result<R>> {
        let half = self.source.half(side);
        while half.is_ready.get() {
            match call(self.get()) {
                Err(error) if error.kind() == ErrorKind::WouldBlock => half.is_ready.set(false),
                Err(error) if error.kind() == ErrorKind::Interrupted => {}
                told => return Poll::Ready(told),
            }
        }
        // An event that came since then is told by the next look at the epoll, which this thread makes.
        let mut waiting = half.waiting.borrow_mut();
        if !waiting.as_ref().is_some_and(|it| it.will_wake(cx.waker())) {
            *waiting = Some(cx.waker().clone());
        }
        Poll::Pending
    }

    /// The same for a read into a buffer of so many bytes. One that gave less took all there was, so the next one waits for an event.
    pub(crate) fn poll_read_with(&self, cx: &mut Context<'_>, room: usize, call: impl FnMut(&T) -> io::Result<usize>) -> Poll<io::Result<usize>> {
        let told = self.poll_with(cx, Side::Read, call);
        if let Poll::Ready(Ok(count)) = told {
            let reads = &self.source.reads;
            reads.is_ready.set(count == 0 || count >= room || reads.is_closed.get());
        }
        told
    }

    /// Waits until the file may be written to, from now on.
    pub(crate) fn poll_writable(&self, cx: &mut Context<'_>, has_waited: &mut bool) -> Poll<io::Result<()>> {
        if !std::mem::replace(has_waited, true) {
            self.source.writes.is_ready.set(false);
        }
        self.poll_with(cx, Side::Write, |_| Ok(()))
    }
}

impl<T: AsRawFd> Drop for Registered<T> {
    fn drop(&mut self) {
        // Before the file is closed, so that the epoll forgets it.
        self.remove();
    }
}

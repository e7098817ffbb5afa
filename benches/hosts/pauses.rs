// The longest pauses of a host: pauses TURNS NAME. A core of a house as `Config::default` opens it makes so many turns, of 16 jobs in four queues that
// yield and are done behind 64 runs, and the outside actor submits the next one. What becomes of the notes:
//   text    they are passed on as text
//   bytes   they are passed on in bytes
//   last    the text of the newest 1000 stays
//   none    they are forgotten
// Each call of the library on a seat is timed, since the linker puts a function of this file in its place (--wrap), and so is each call of the wrapper.
// By turns with some 100,000 turns, and for as long as they took, a loop reads the counter and does nothing else: what it misses the machine took away.
//
// Each line: a call; how many there were; the middle microseconds of all; how many took more than 50 us; of these, how many in which the processor ran this
// thread for less than 50 us; the longest; the longest time in which the processor ran this thread, of one call; and the longest of those calls behind
// whose last look, which comes each 1000 turns, the system ran no other thread. Of the longest: the microseconds in which the thread didn't run, and the
// switches (asked and not) and the faults of memory since that look. The last line has the longest call of the library of the kind before, and how many of
// these took more than 50 us; what the control has more of, the machine took away from under the system.
use fairexec::linked::{Config, Form, House, Journal, Opened, Step, Turn};
use fairexec::Error;
use std::arch::x86_64::_rdtsc;
use std::cell::{Cell, RefCell};
use std::ffi::c_void;
use std::time::Instant;

/// Turns of a slice, and between two looks at what the system says of the thread.
const SLICE: u64 = 100_000;
const LOOK: u64 = 1_000;

/// So many jobs have so many runs each, fewer than `BY`.
const JOBS: u64 = 16;
const RUNS: u64 = 64;
const BY: u64 = 1000;

/// What takes more microseconds is long.
const LONG: f64 = 50.0;

#[repr(C)]
#[derive(Clone, Copy, Default)]
struct Time {
    seconds: i64,
    rest: i64,
}

/// As the C library has it.
#[repr(C)]
#[derive(Clone, Copy, Default)]
struct Usage {
    times: [Time; 2],
    memory: [i64; 4],
    faults: [i64; 2],
    others: [i64; 6],
    switches: [i64; 2],
}

extern "C" {
    fn clock_gettime(clock: i32, time: *mut Time) -> i32;
    fn getrusage(who: i32, usage: *mut Usage) -> i32;
}

/// What the system says of this thread.
#[derive(Clone, Copy)]
struct Look {
    wall: Instant,
    ran: f64,
    switches: i64,
    faults: i64,
}

impl Look {
    fn now() -> Look {
        const THREAD_TIME: i32 = 3;
        const THREAD: i32 = 1;
        let (mut time, mut usage) = (Time::default(), Usage::default());
        // SAFETY: both pointers are to local values.
        let told = unsafe { (clock_gettime(THREAD_TIME, &mut time), getrusage(THREAD, &mut usage)) };
        assert_eq!(told, (0, 0));
        let ran = time.seconds as f64 * 1e6 + time.rest as f64 / 1e3;
        Look { wall: Instant::now(), ran, switches: usage.switches.iter().sum(), faults: usage.faults.iter().sum() }
    }
}

/// A call that took long: microseconds, those in which the thread didn't run, switches and faults.
#[derive(Clone, Copy, Default)]
struct Long {
    took: f64,
    off: f64,
    switches: i64,
    faults: i64,
}

#[derive(Default)]
struct Seen {
    count: Cell<u64>,
    ticks: Cell<u64>,
    brief: Cell<u64>,
    longs: RefCell<Vec<Long>>,
}

#[derive(Default)]
struct All {
    seen: [Seen; KINDS],
    // A call of more ticks is long, and a microsecond has so many.
    long: Cell<u64>,
    rate: Cell<f64>,
    look: RefCell<Option<Look>>,
}

thread_local! {
    static ALL: All = All::default();
}

fn counter() -> u64 {
    // SAFETY: each processor of x86-64 has it.
    unsafe { _rdtsc() }
}

impl All {
    #[inline]
    fn note(&self, kind: usize, took: u64) {
        let seen = &self.seen[kind];
        seen.count.set(seen.count.get() + 1);
        seen.ticks.set(seen.ticks.get() + took);
        if took > self.long.get() {
            self.note_long(seen, took);
        } else if took > seen.brief.get() {
            seen.brief.set(took);
        }
    }

    #[cold]
    fn note_long(&self, seen: &Seen, took: u64) {
        let (before, now) = (self.look.borrow().unwrap_or_else(Look::now), Look::now());
        let took = took as f64 / self.rate.get();
        let off = now.wall.duration_since(before.wall).as_secs_f64() * 1e6 - (now.ran - before.ran);
        seen.longs.borrow_mut().push(Long {
            took,
            off: off.clamp(0.0, took),
            switches: now.switches - before.switches,
            faults: now.faults - before.faults,
        });
    }

    /// The longest of the calls behind whose last look the system ran no other thread, and how many of them were long.
    fn alone(&self, kind: usize) -> (f64, usize) {
        let (seen, longs) = (&self.seen[kind], self.seen[kind].longs.borrow());
        let alone = longs.iter().filter(|it| it.switches == 0);
        (alone.clone().map(|it| it.took).fold(seen.brief.get() as f64 / self.rate.get(), f64::max), alone.count())
    }

    /// The longest of the library's calls of that kind, and how many of them, and of the control, were long.
    fn tell_all(&self) {
        let calls = (0..KINDS).filter(|it| NAMES[*it].starts_with("fx_"));
        let (call, longest) = calls.clone().map(|it| (NAMES[it], self.alone(it).0)).fold(("", 0.0), |one, it| if it.1 > one.1 { it } else { one });
        let long: usize = calls.map(|it| self.alone(it).1).sum();
        let (control, of_control) = self.alone(Kind::control as usize);
        println!("no other thread ran: {call} {longest:.1} us, {long} calls of the library over {LONG} us; the control {control:.1} us, {of_control}");
    }

    fn tell(&self, kind: usize) {
        let (seen, longs) = (&self.seen[kind], self.seen[kind].longs.borrow());
        if seen.count.get() == 0 {
            return;
        }
        let brief = Long { took: seen.brief.get() as f64 / self.rate.get(), ..Long::default() };
        let longest = longs.iter().fold(brief, |one, other| if other.took > one.took { *other } else { one });
        let ran = longs.iter().map(|it| it.took - it.off).fold(brief.took, f64::max);
        let taken = longs.iter().filter(|it| it.took - it.off < LONG).count();
        let (alone, _) = self.alone(kind);
        let mean = seen.ticks.get() as f64 / self.rate.get() / seen.count.get() as f64;
        let Long { took, off, switches, faults } = longest;
        println!(
            "{:18} {:12} {mean:8.3} {:8} {taken:8} {took:10.1} {ran:10.1} {alone:10.1} {off:10.1} {switches:6} {faults:6}",
            NAMES[kind],
            seen.count.get(),
            longs.len()
        );
    }
}

#[inline]
fn timed<T>(kind: Kind, call: impl FnOnce() -> T) -> T {
    let began = counter();
    let told = call();
    let took = counter() - began;
    ALL.with(|all| all.note(kind as usize, took));
    told
}

type Any = *mut c_void;

/// The calls that the wrapper makes on a seat, each in place of that of the library, and what is timed beside them.
macro_rules! calls {
    ($($name:ident($($takes:ident: $kind:ty),*)),*; $($other:ident),*) => {
        #[allow(non_camel_case_types)]
        #[derive(Clone, Copy)]
        enum Kind { $($name,)* $($other,)* }
        const NAMES: &[&str] = &[$(stringify!($name),)* $(stringify!($other),)*];
        const KINDS: usize = NAMES.len();
        mod real {
            use super::Any;
            extern "C" { $(#[link_name = concat!("__real_", stringify!($name))] pub fn $name($($takes: $kind),*) -> u32;)* }
        }
        mod wrapped {
            use super::{real, timed, Any, Kind};
            $(#[export_name = concat!("__wrap_", stringify!($name))]
            extern "C" fn $name($($takes: $kind),*) -> u32 {
                // SAFETY: the wrapper's call, handed on as it is.
                timed(Kind::$name, || unsafe { real::$name($($takes),*) })
            })*
        }
    };
}

calls! {
    fx_seat_next(seat: Any, turn: Any),
    fx_seat_settle(seat: Any, step: u32, answer: u64, spent: u64),
    fx_seat_deliver(seat: Any, sender: u32),
    fx_seat_collect(seat: Any, core: u32, count: Any),
    fx_seat_submit(seat: Any, to: u32, queue: u32, job: u64, name: Any),
    fx_seat_redeem(seat: Any, name: Any, outcome: Any),
    fx_seat_notes(seat: Any, kept: Any, free: Any),
    fx_seat_copy(seat: Any, from: u64, most: u64, bytes: Any, room: usize, count: Any, notes: Any),
    fx_seat_copy_bytes(seat: Any, before: u64, from: u64, most: u64, bytes: Any, room: usize, count: Any, notes: Any),
    fx_seat_forget(seat: Any, count: Any);
    run_turn, deliver, submit, collect, redeem, control
}

/// Sets what a tick is, by the wall's clock.
fn set_rate() {
    let (began, ticks) = (Instant::now(), counter());
    while began.elapsed().as_millis() < 200 {}
    let rate = (counter() - ticks) as f64 / began.elapsed().as_secs_f64() / 1e6;
    ALL.with(|all| (all.rate.set(rate), all.long.set((rate * LONG) as u64)));
}

fn look() {
    ALL.with(|all| *all.look.borrow_mut() = Some(Look::now()));
}

/// Reads the counter for so many ticks.
fn control(ticks: u64) {
    let began = counter();
    let mut last = began;
    while last - began < ticks {
        look();
        last = counter();
        for _ in 0..16 * LOOK {
            let now = counter();
            ALL.with(|all| all.note(Kind::control as usize, now - last));
            last = now;
        }
    }
}

fn run(turns: u64, name: &str) -> Result<bool, Error> {
    let (journal, form) = match name {
        "text" => (Journal::Keep, Form::Text),
        "bytes" => (Journal::Keep, Form::Bytes),
        "last" => (Journal::Last(1000), Form::Text),
        "none" => (Journal::Forget, Form::Text),
        _ => return Ok(false),
    };
    set_rate();
    let (_house, mut cores, mut outside): Opened<u64> = House::open(&Config { journal, form, ..Config::default() })?;
    let mut core = cores.remove(0);
    if journal == Journal::Keep {
        core.keep_notes_by(|part| assert!(!part.is_empty()));
        outside.keep_notes_by(|part| assert!(!part.is_empty()));
    }
    for queue in 1..4 {
        let ticket = outside.create(0, 250 * queue)?;
        core.deliver()?;
        let _made = outside.wait_for(&ticket)?;
    }
    // A job has its number, and how many runs are left to it.
    let mut tickets = Vec::new();
    for job in 0..JOBS {
        tickets.push(outside.submit(0, job as u32 % 4, job * BY + 1 + job * RUNS / JOBS).map_err(|(error, _)| error)?);
        core.deliver()?;
    }
    let mut left = turns;
    while left > 0 {
        let began = counter();
        for each in 0..SLICE.min(left) {
            if each % LOOK == 0 {
                look();
            }
            let mut job = 0;
            let turn = timed(Kind::run_turn, || {
                core.run_turn(|runs, _| {
                    *runs -= 1;
                    job = *runs / BY;
                    if *runs % BY == 0 {
                        Step::Done(0)
                    } else {
                        Step::Yield
                    }
                })
            })?;
            if turn == Turn::Done {
                timed(Kind::collect, || outside.collect())?;
                let _done = timed(Kind::redeem, || outside.redeem(&tickets[job as usize]))?;
                tickets[job as usize] = timed(Kind::submit, || outside.submit(0, job as u32 % 4, job * BY + RUNS)).map_err(|(error, _)| error)?;
                timed(Kind::deliver, || core.deliver())?;
            }
        }
        left -= SLICE.min(left);
        control(counter() - began);
    }
    Ok(true)
}

fn main() -> Result<(), Error> {
    let words: Vec<String> = std::env::args().skip(1).collect();
    let [turns, name] = words.as_slice() else { panic!("TURNS NAME") };
    let began = Instant::now();
    assert!(run(turns.parse().expect("a number of turns"), name)?, "NAME is text, bytes, last or none");
    println!("{name}: {turns} turns, and the control, in {:.0} s", began.elapsed().as_secs_f64());
    println!(
        "{:18} {:>12} {:>8} {:>8} {:>8} {:>10} {:>10} {:>10} {:>10} {:>6} {:>6}",
        "call", "calls", "mean us", "over 50", "not run", "longest", "ran", "no switch", "off then", "switch", "faults"
    );
    ALL.with(|all| {
        (0..KINDS).for_each(|kind| all.tell(kind));
        all.tell_all();
    });
    Ok(())
}
